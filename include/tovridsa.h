/*
 * Tovridsa for a host in C11 or C++11: servers and desks of a replicated store of seat maps, and questions about its messages. Link
 * target/staticlib/libhost.a, which `tools/build host` writes.
 *
 * The store does no input or output and has no clock. A host keeps a record for each server and each desk, calls the functions below, and carries the
 * messages that they write from party to party, in whatever way and order it likes: messages may be lost, doubled, delayed and reordered.
 *
 * A call's answer is a signed 64-bit number: for a refusal -1,000,000 less its number, else what the function says. Ask and share answer the place
 * after the message that they wrote; serve answers 0 and has that place beside it. Quorum and margin answer numbers from -16,000 to 16,000, and no other
 * function answers one below 0: so tell a refusal by tovridsa_refusal, and not by its sign.
 *
 * Nothing has to be checked before a call. Any number, any sequence of bytes and any bits in a record's fields get an answer; a call tests the record
 * first. A refusal leaves records and buffers as they were.
 *
 * What a call cannot check is a pointer. One beside a length must be valid for reads (for writes too, where it is not const) of that many bytes, or, of
 * a list of start weights, of that many numbers of 64 bits, for which it is aligned; and this for the time of the call. Nobody else may write those
 * bytes during it, nor read those that the call may write; and no two of the buffers and records that one call is lent may overlap where it may write
 * one of them. With the length 0 nothing is read or written, and the pointer may be null: that is how an empty message, value, block or list is passed.
 * A pointer to a record is aligned for it and not null. The functions keep no pointer, use no memory but the stack (less than 24 KiB, as measured), and
 * may be called from several threads at once, on different records.
 *
 * Records are plain data: copy them, compare them with memcmp (they have no padding), keep them in a file. In a record that was opened and has been
 * through calls only, what means nothing is 0: the bytes after a value's own, and what an operation does not use. Only what the last call on a record
 * handed back or left there may be given to the next one: a party that goes on with an older copy of its record is another party under its name, of
 * which nothing is proved. For the same reason every server has one record, and every desk number.
 *
 * What a host must see to, since no call can (docs/HOST.md says more):
 *
 *   - bytes arrive as they were sent, in this cluster and block: put each message into a frame with both names and a checksum, better a MAC. The
 *     message checks find no altered bit, and one that is taken spreads and cannot be taken back;
 *   - a record is durable before any byte that shows it leaves, or a result or a drop is told. Until then a call may be undone;
 *   - a server whose record is lost or old never comes back: it counts against f for good. A desk then takes a number never used before;
 *   - among honest parties TORN, BAD_MAP, ODD_FIELD, LIGHT and CLASH never occur. CLASH is an alarm: two parties hold what cannot both be true;
 *   - ask all servers in every round, and again as often as you like; that an operation ends nobody can promise. A write that is dropped in phase 2
 *     may still take effect, until the same desk has ended a read;
 *   - one store is one block, a register and no lock: beside it one desk at a time looks, sells and writes, until its write has ended.
 */
#ifndef TOVRIDSA_H
#define TOVRIDSA_H

#include <stddef.h>
#include <stdint.h>

#ifdef __cplusplus
extern "C" {
#endif

/*
 * The version of records and message bytes, which is also the number of the format in docs/FORMAT.md. Keep it beside a record in a file and in the frame
 * of a message, and refuse another one. Functions and their answers may change without it: docs/LANDINGS.md says what each landing has changed.
 */
#define TOVRIDSA_VERSION 2

/* ---- answers */

/* An answer of TOVRIDSA_REFUSED - k is the refusal k. */
#define TOVRIDSA_REFUSED INT64_C(-1000000)

/* The answer of hear to a reply that comes too late: nothing has changed, and nothing is wrong. */
#define TOVRIDSA_LATE INT64_C(1)

/* The refusals. */
enum {
    TOVRIDSA_BAD_HOUSE = 1,     /* n or f is out of bounds; a server or map has a server >= n; a desk's number is not 1 to 65,535; or a record breaks a
                                   bound: a field is out of its range (a row's total too, which lies from its count to 16,000 times it), its start
                                   weights would be a BAD_START or are not 0 from n on, or by its sheet some server's weight is not above the floor */
    TOVRIDSA_TORN = 2,          /* the message ends early or late */
    TOVRIDSA_BAD_MAP = 3,       /* it has fields that its kind may not have, or lacks some */
    TOVRIDSA_ODD_FIELD = 4,     /* a field is out of its range */
    TOVRIDSA_LIGHT = 5,         /* by its sheet some server's weight is not above the floor */
    TOVRIDSA_CLASH = 6,         /* its sheet or register does not go together with the record's, or lacks a transfer that the desk knows */
    TOVRIDSA_STRAY = 7,         /* it is not for this server or desk, or not of a kind that it takes */
    TOVRIDSA_BUSY = 8,          /* an operation runs */
    TOVRIDSA_IDLE = 9,          /* no operation runs, or none has ended since the last begin */
    TOVRIDSA_THIN = 10,         /* what the giver keeps would not be above the floor */
    TOVRIDSA_BAD_TRANSFER = 11, /* the taker is the giver or >= n, or the amount is 0 */
    TOVRIDSA_SPENT = 12,        /* a counter is at its end: a transfer count, a round or a stamp */
    TOVRIDSA_NARROW = 13,       /* the message does not fit into the buffer from that place on */
    TOVRIDSA_LONG = 14,         /* the value or block is longer than 64 bytes */
    TOVRIDSA_BAD_START = 15     /* a list of start weights is not n long, its sum passes 16,000, or one of them is not above the floor */
};

/* The number of a refusal, or 0 for any other answer. */
static inline int tovridsa_refusal(int64_t answer)
{
    return answer < TOVRIDSA_REFUSED ? (int)(TOVRIDSA_REFUSED - answer) : 0;
}

/* The longest message: a buffer with this many bytes from the place on is never too narrow. */
#define TOVRIDSA_LONGEST 1111

/* ---- records */

/*
 * The cluster: servers 0 to n - 1, 1 to 16 of them, of which f may crash, 2f < n, and what each of them weighs at the start. All together weigh W, the
 * sum of these, at most 16,000. A weight w is above the floor where w * 2 * (n - f) > W: every start weight is, and what a server has left after a
 * transfer.
 */
typedef struct tovridsa_config {
    uint64_t n;
    uint64_t f;
    uint16_t starts[16]; /* those of servers 0 to n - 1; 0 from n on */
} tovridsa_config;

/* The transfers of weight that a party knows: counts[i] is how many server i made, cells[16 * i + j] what it gave server j in all. */
typedef struct tovridsa_ledger {
    uint16_t counts[16];
    uint32_t cells[256];
} tovridsa_ledger;

/* A value: the first `length` of the bytes, 0 to 64. */
typedef struct tovridsa_value {
    uint16_t length;
    uint8_t bytes[64];
} tovridsa_value;

/* A tag, which is a stamp and the number of the desk that wrote, and the value written. At the start all is 0. */
typedef struct tovridsa_register {
    uint32_t stamp;
    uint16_t desk;
    tovridsa_value value;
} tovridsa_register;

/* What a party holds. */
typedef struct tovridsa_replica {
    tovridsa_ledger ledger;
    tovridsa_register reg;
} tovridsa_replica;

/* A server. */
typedef struct tovridsa_server {
    tovridsa_config config;
    uint64_t number; /* 0 to n - 1 */
    tovridsa_replica replica;
} tovridsa_server;

/* What a desk does: nothing; an operation runs; one has ended and its result is kept. */
enum { TOVRIDSA_NONE = 0, TOVRIDSA_RUNNING = 1, TOVRIDSA_ENDED = 2 };

/* The kinds of operation. */
enum { TOVRIDSA_READ = 1, TOVRIDSA_WRITE = 2 };

typedef struct tovridsa_operation {
    uint32_t mode;     /* NONE, RUNNING or ENDED */
    uint32_t note;     /* what its messages carry for the host, or 0; 0 once it has ended or was dropped */
    uint32_t restarts; /* how often it started over */
    uint16_t kind;     /* READ or WRITE; also 0 if there is no operation */
    uint16_t phase;    /* 1 or 2; also 0 if none runs */
    uint16_t answered; /* the servers that have answered in this round: bit i, bit 0 worth 1, is server i */
    tovridsa_value value;     /* what is to be written; empty once it has ended or was dropped */
    tovridsa_register chosen; /* what phase 1 chose: in phase 2, and once it has ended; else the start */
} tovridsa_operation;

/* A desk: a client of the store. */
typedef struct tovridsa_desk {
    tovridsa_config config;
    uint64_t number; /* 1 to 65,535 */
    tovridsa_replica replica;
    uint32_t round;
    tovridsa_operation operation;
} tovridsa_desk;

/* An answer, and the record changed, or as it was where the answer is a refusal. */
typedef struct tovridsa_server_answer {
    int64_t answer;
    tovridsa_server server;
} tovridsa_server_answer;

/* The same of serve, and the place in the buffer after the reply, or the place that was given where nothing is written. */
typedef struct tovridsa_serve_answer {
    int64_t answer;
    uint64_t end;
    tovridsa_server server;
} tovridsa_serve_answer;

/* An answer, and the record changed, or as it was where the answer is not 0. */
typedef struct tovridsa_desk_answer {
    int64_t answer;
    tovridsa_desk desk;
} tovridsa_desk_answer;

/* An answer, and the result of an operation; every field is 0 where the answer is a refusal. */
typedef struct tovridsa_result_answer {
    int64_t answer;
    uint32_t restarts;     /* how often it started over */
    uint32_t kind;         /* READ or WRITE */
    tovridsa_register reg; /* its tag, and the value read or written */
} tovridsa_result_answer;

/* ---- servers */

/*
 * Opens a server. All parties of a cluster are opened with the same n, f and start weights: nothing is proved of one whose parties differ in them, and
 * messages do not carry them, so that a call need not notice.
 *
 *   n                   how many servers the cluster has, 1 to 16
 *   f                   how many of them may crash, 2f < n
 *   number              which of them this is, 0 to n - 1
 *   starts, starts_len  what each server weighs at the start: n numbers, of server 0 first. Their sum W is at most 16,000, and each is above the floor
 *                       (tovridsa_config). A level cluster has 1,000 for each
 *
 * Answers 0, beside a fresh record, or refuses: BAD_HOUSE for n, f or the number; BAD_START. Beside a refusal stands a record with every field 0, which
 * no call accepts.
 */
tovridsa_server_answer tovridsa_open_server(uint64_t n, uint64_t f, uint64_t number, const uint64_t *starts, size_t starts_len);

/*
 * Gives weight to another server. No message is sent: whoever hears from this server learns of it.
 *
 *   server    the giver's record
 *   taker     the server that gets it, 0 to n - 1, another one
 *   amount    how much, above 0
 *
 * Answers 0, beside the record changed, or refuses: BAD_HOUSE for the record; BAD_TRANSFER; SPENT after 65,535 transfers; THIN.
 */
tovridsa_server_answer tovridsa_transfer(tovridsa_server server, uint64_t taker, uint64_t amount);

/*
 * Writes a share, by which other servers learn what this one holds. The record stays as it is.
 *
 *   server    the record
 *   out, len  a buffer
 *   at        the place in it from which on the share is written, any number
 *
 * Answers the place after the share, or refuses: BAD_HOUSE for the record; NARROW.
 */
int64_t tovridsa_share(tovridsa_server server, uint8_t *out, size_t len, size_t at);

/*
 * Takes a request or a share, and writes the reply to a request.
 *
 *   server        the record
 *   msg, msg_len  the message
 *   out, out_len  a buffer for the reply
 *   at            the place in it from which on the reply is written, any number
 *
 * Answers 0, beside the record changed; the reply is out[at] to out[end - 1], and there is none to a share, where end is at. Or refuses: BAD_HOUSE for
 * the record; TORN, BAD_MAP, ODD_FIELD or LIGHT as tovridsa_check does; STRAY for a reply and for a request to another server; CLASH; NARROW.
 */
tovridsa_serve_answer tovridsa_serve(tovridsa_server server, const uint8_t *msg, size_t msg_len, uint8_t *out, size_t out_len, size_t at);

/* ---- desks */

/*
 * Opens a desk.
 *
 *   n, f                as in tovridsa_open_server
 *   number              the desk's number, 1 to 65,535, which no other desk of the cluster has
 *   starts, starts_len  as in tovridsa_open_server
 *
 * Answers 0, beside a fresh record, or refuses: BAD_HOUSE for n, f or the number; BAD_START. Beside a refusal stands a record with every field 0, which
 * no call accepts.
 */
tovridsa_desk_answer tovridsa_open_desk(uint64_t n, uint64_t f, uint64_t number, const uint64_t *starts, size_t starts_len);

/*
 * Begins a read. A result that was kept is gone.
 *
 *   desk      the record
 *   note      a number that all messages of the operation carry, for the host's own use, or 0 for none
 *
 * Answers 0, beside the record changed, or refuses: BAD_HOUSE for the record; BUSY; SPENT in the last round.
 */
tovridsa_desk_answer tovridsa_begin_read(tovridsa_desk desk, uint32_t note);

/*
 * Begins a write. A result that was kept is gone.
 *
 *   desk, note  as in tovridsa_begin_read
 *   value, len  what is to be written, 0 to 64 bytes
 *
 * Answers 0, beside the record changed, or refuses: BAD_HOUSE for the record; LONG; BUSY; SPENT in the last round.
 */
tovridsa_desk_answer tovridsa_begin_write(tovridsa_desk desk, uint32_t note, const uint8_t *value, size_t len);

/*
 * Writes a request to a server. Ask every server, in every round, and again those that do not answer. The record stays as it is.
 *
 *   desk      the record
 *   server    the server that is asked, 0 to n - 1
 *   out, len  a buffer
 *   at        the place in it from which on the request is written, any number
 *
 * Answers the place after the request, or refuses: BAD_HOUSE for the record; IDLE; BAD_HOUSE for the server; NARROW.
 */
int64_t tovridsa_ask(tovridsa_desk desk, uint64_t server, uint8_t *out, size_t len, size_t at);

/*
 * Takes a server's reply, which may start the operation over, end its phase or end it. Whenever desk.round has changed, the servers are to be asked
 * again; when desk.operation.mode is ENDED, there is a result.
 *
 *   desk      the record
 *   msg, len  the message
 *
 * Answers 0, beside the record changed; LATE, beside the record as it was, where no operation runs or the reply is of another round; or refuses:
 * BAD_HOUSE for the record; TORN, BAD_MAP, ODD_FIELD or LIGHT as tovridsa_check does; STRAY for anything but a reply to this desk; CLASH; SPENT where a
 * round or a stamp would pass its end.
 */
tovridsa_desk_answer tovridsa_hear(tovridsa_desk desk, const uint8_t *msg, size_t len);

/*
 * The same on a record that the host lends and finds changed. It is changed where the answer is 0, and as it was, byte for byte, at any other.
 *
 *   desk      a pointer to the record, aligned and not null; no byte of it is a byte of the message
 *   msg, len  the message
 *
 * Answers and refuses as tovridsa_hear does.
 */
int64_t tovridsa_hear_lent(tovridsa_desk *desk, const uint8_t *msg, size_t len);

/*
 * Tells the result of the operation that ended since the last begin, as often as it is asked for. The record stays as it is.
 *
 *   desk      the record
 *
 * Answers 0, beside the result, or refuses: BAD_HOUSE for the record; IDLE.
 */
tovridsa_result_answer tovridsa_result(tovridsa_desk desk);

/*
 * Says how far the operation that runs is from the end of its phase, for people who wait for it: twice the weight of the servers that have answered in
 * this round, by the desk's own sheet, less that of all servers. The record stays as it is. In a record that was opened and has been through calls only
 * the number is never above 0, since hear ends the phase then; the weight still missing is half of what it is below 0, rounded down, and 1 more.
 *
 *   desk      the record
 *
 * Answers that number, from -16,000 to 16,000 (-W to W), or refuses: BAD_HOUSE for the record; IDLE where none runs.
 */
int64_t tovridsa_margin(tovridsa_desk desk);

/*
 * Ends the operation that runs, without a result. A write that is dropped may still take effect, at any later time, even after other writes have ended:
 * its requests may be on their way. So a host that lets one desk write at a time does not let another one write before this desk has ended a read.
 *
 *   desk      the record
 *
 * Answers 0, beside the record changed, or refuses: BAD_HOUSE for the record; IDLE where none runs.
 */
tovridsa_desk_answer tovridsa_drop(tovridsa_desk desk);

/* ---- messages and blocks */

/*
 * Checks a message.
 *
 *   n                   how many servers the cluster has, 1 to 16
 *   f                   how many of them may crash, 2f < n
 *   starts, starts_len  what each server weighs at the start, as in tovridsa_open_server
 *   msg, len            the message
 *
 * Answers 0 where the message passes, or refuses: BAD_HOUSE for n or f; BAD_START, whatever the message is; then, by the first fault from the front of
 * the message, TORN, BAD_MAP or ODD_FIELD; then TORN for bytes left over; last LIGHT.
 */
int64_t tovridsa_check(uint64_t n, uint64_t f, const uint64_t *starts, size_t starts_len, const uint8_t *msg, size_t len);

/*
 * Weighs a server by a message's sheet. A message without a sheet has the fresh one, on which every server has its start weight.
 *
 *   server    the server, 0 to n - 1
 *   n, f, starts, starts_len, msg, len as in tovridsa_check
 *
 * Answers the weight, which is above 0, or refuses as tovridsa_check does, and then BAD_HOUSE for a server >= n.
 */
int64_t tovridsa_weight(uint64_t n, uint64_t f, const uint64_t *starts, size_t starts_len, uint64_t server, const uint8_t *msg, size_t len);

/*
 * Says by how much servers carry more than half of the weight by a message's sheet: twice their weight, less that of all servers. Above 0 they are a
 * quorum; at 0 and below they are not.
 *
 *   map       the servers: bit i, bit 0 worth 1, names server i
 *   n, f, starts, starts_len, msg, len as in tovridsa_check
 *
 * Answers that number, from -16,000 to 16,000 (-W to W), or refuses as tovridsa_check does, and then BAD_HOUSE for a map with a bit >= n.
 */
int64_t tovridsa_quorum(uint64_t n, uint64_t f, const uint64_t *starts, size_t starts_len, uint64_t map, const uint8_t *msg, size_t len);

/*
 * Counts the seats on offer in a block: its bits that are 0. A bit that is 1 is a seat sold.
 *
 *   block, len  the block, 0 to 64 bytes of eight seats each
 *
 * Answers the seats, 0 to 512, or refuses: LONG for a block of more than 64 bytes.
 */
int64_t tovridsa_seats(const uint8_t *block, size_t len);

/* ---- where the fields lie */

#ifdef __cplusplus
#define TOVRIDSA_LAID static_assert
#else
#define TOVRIDSA_LAID _Static_assert
#endif

#define TOVRIDSA_AT(record, field, place) TOVRIDSA_LAID(offsetof(record, field) == (place), #record "." #field " lies elsewhere")

/* Each record is as long as its fields together, and each field lies after those before it. */
TOVRIDSA_LAID(sizeof(tovridsa_config) == 8 + 8 + 16 * 2, "tovridsa_config");
TOVRIDSA_AT(tovridsa_config, n, 0);
TOVRIDSA_AT(tovridsa_config, f, 8);
TOVRIDSA_AT(tovridsa_config, starts, 16);

TOVRIDSA_LAID(sizeof(tovridsa_ledger) == 16 * 2 + 256 * 4, "tovridsa_ledger");
TOVRIDSA_AT(tovridsa_ledger, counts, 0);
TOVRIDSA_AT(tovridsa_ledger, cells, 32);

TOVRIDSA_LAID(sizeof(tovridsa_value) == 2 + 64, "tovridsa_value");
TOVRIDSA_AT(tovridsa_value, length, 0);
TOVRIDSA_AT(tovridsa_value, bytes, 2);

TOVRIDSA_LAID(sizeof(tovridsa_register) == 4 + 2 + sizeof(tovridsa_value), "tovridsa_register");
TOVRIDSA_AT(tovridsa_register, stamp, 0);
TOVRIDSA_AT(tovridsa_register, desk, 4);
TOVRIDSA_AT(tovridsa_register, value, 6);

TOVRIDSA_LAID(sizeof(tovridsa_replica) == sizeof(tovridsa_ledger) + sizeof(tovridsa_register), "tovridsa_replica");
TOVRIDSA_AT(tovridsa_replica, ledger, 0);
TOVRIDSA_AT(tovridsa_replica, reg, 1056);

TOVRIDSA_LAID(sizeof(tovridsa_server) == sizeof(tovridsa_config) + 8 + sizeof(tovridsa_replica), "tovridsa_server");
TOVRIDSA_AT(tovridsa_server, config, 0);
TOVRIDSA_AT(tovridsa_server, number, 48);
TOVRIDSA_AT(tovridsa_server, replica, 56);

TOVRIDSA_LAID(sizeof(tovridsa_operation) == 3 * 4 + 3 * 2 + sizeof(tovridsa_value) + sizeof(tovridsa_register), "tovridsa_operation");
TOVRIDSA_AT(tovridsa_operation, mode, 0);
TOVRIDSA_AT(tovridsa_operation, note, 4);
TOVRIDSA_AT(tovridsa_operation, restarts, 8);
TOVRIDSA_AT(tovridsa_operation, kind, 12);
TOVRIDSA_AT(tovridsa_operation, phase, 14);
TOVRIDSA_AT(tovridsa_operation, answered, 16);
TOVRIDSA_AT(tovridsa_operation, value, 18);
TOVRIDSA_AT(tovridsa_operation, chosen, 84);

TOVRIDSA_LAID(sizeof(tovridsa_desk) == sizeof(tovridsa_config) + 8 + sizeof(tovridsa_replica) + 4 + sizeof(tovridsa_operation), "tovridsa_desk");
TOVRIDSA_AT(tovridsa_desk, config, 0);
TOVRIDSA_AT(tovridsa_desk, number, 48);
TOVRIDSA_AT(tovridsa_desk, replica, 56);
TOVRIDSA_AT(tovridsa_desk, round, 1184);
TOVRIDSA_AT(tovridsa_desk, operation, 1188);

TOVRIDSA_LAID(sizeof(tovridsa_server_answer) == 8 + sizeof(tovridsa_server), "tovridsa_server_answer");
TOVRIDSA_AT(tovridsa_server_answer, answer, 0);
TOVRIDSA_AT(tovridsa_server_answer, server, 8);

TOVRIDSA_LAID(sizeof(tovridsa_serve_answer) == 8 + 8 + sizeof(tovridsa_server), "tovridsa_serve_answer");
TOVRIDSA_AT(tovridsa_serve_answer, answer, 0);
TOVRIDSA_AT(tovridsa_serve_answer, end, 8);
TOVRIDSA_AT(tovridsa_serve_answer, server, 16);

TOVRIDSA_LAID(sizeof(tovridsa_desk_answer) == 8 + sizeof(tovridsa_desk), "tovridsa_desk_answer");
TOVRIDSA_AT(tovridsa_desk_answer, answer, 0);
TOVRIDSA_AT(tovridsa_desk_answer, desk, 8);

TOVRIDSA_LAID(sizeof(tovridsa_result_answer) == 8 + 4 + 4 + sizeof(tovridsa_register), "tovridsa_result_answer");
TOVRIDSA_AT(tovridsa_result_answer, answer, 0);
TOVRIDSA_AT(tovridsa_result_answer, restarts, 8);
TOVRIDSA_AT(tovridsa_result_answer, kind, 12);
TOVRIDSA_AT(tovridsa_result_answer, reg, 16);

#undef TOVRIDSA_AT
#undef TOVRIDSA_LAID

#ifdef __cplusplus
}
#endif

#endif
