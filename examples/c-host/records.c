/*
 * Holds the calls on servers and desks to what tovridsa.h says of any input: records with any bits in their fields, any bytes as a message, any
 * numbers, any place and length of a buffer. Records, messages and buffers lie between bytes that no call may touch.
 *
 * What a call has to refuse, and by which number, is written here again, from the header and docs/FORMAT.md. The program prints how much it tried, and
 * ends with status 1 at the first difference. The cases are drawn from a seed: records [seed].
 */
#include "tovridsa.h"

#include <inttypes.h>
#include <stdbool.h>
#include <stdio.h>
#include <stdlib.h>
#include <string.h>

enum { RANDOM_CASES = 100000 };

/* ---- chance and failure */

static uint64_t seed = 1;
static uint64_t chance;
static uint64_t calls, refusals;
static uint64_t met[TOVRIDSA_BAD_START + 1]; /* how often each refusal was met */
static const char *part = "";

static _Noreturn void fail(int line, const char *what)
{
    fprintf(stderr, "records.c:%d: seed %" PRIu64 ", %s, call %" PRIu64 ": not so: %s\n", line, seed, part, calls, what);
    exit(1);
}

#define CHECK(condition) ((condition) ? (void)0 : fail(__LINE__, #condition))

/* The generator splitmix64: small, and the same everywhere. */
static uint64_t next_random(void)
{
    uint64_t z = chance += UINT64_C(0x9E3779B97F4A7C15);

    z = (z ^ (z >> 30)) * UINT64_C(0xBF58476D1CE4E5B9);
    z = (z ^ (z >> 27)) * UINT64_C(0x94D049BB133111EB);
    return z ^ (z >> 31);
}

static size_t random_below(size_t bound)
{
    return (size_t)(next_random() % bound);
}

static bool one_in(size_t many)
{
    return random_below(many) == 0;
}

/* Numbers at the ends of their ranges, and beyond. */
static const uint64_t numbers[] = {0, 1, 2, 3, 4, 5, 7, 8, 15, 16, 17, 255, 256, 65535, 65536, UINT32_MAX, UINT64_C(1) << 32, (UINT64_C(1) << 32) + 1,
                                   (UINT64_C(1) << 32) + 5, (UINT64_C(1) << 63) - 1, UINT64_C(1) << 63, UINT64_MAX - 1, UINT64_MAX};

enum { NUMBERS = sizeof numbers / sizeof numbers[0] };

static uint64_t any_number(void)
{
    return one_in(4) ? next_random() : numbers[random_below(NUMBERS)];
}

/* ---- the record test, which every call makes first */

enum { MOST_SERVERS = 16, MOST_WEIGHT = 16000, MOST_VALUE = 64 };

static bool bounds_fit(uint64_t n, uint64_t f)
{
    return n >= 1 && n <= MOST_SERVERS && f < n && 2 * f < n;
}

/* What all servers weigh together. Start weights have 16 bits in a record, so this is no large number. */
static int64_t total_of(const tovridsa_config *config)
{
    int64_t total = 0;

    for (size_t s = 0; s < MOST_SERVERS; s++)
        total += config->starts[s];
    return total;
}

static bool above_floor(const tovridsa_config *config, int64_t weight)
{
    return weight * 2 * (int64_t)(config->n - config->f) > total_of(config);
}

/* n and f are within bounds, there are n start weights and zeros after them, at most 16,000 in all, and each of the n is above the floor. */
static bool config_fits(const tovridsa_config *config)
{
    if (!bounds_fit(config->n, config->f) || total_of(config) > MOST_WEIGHT)
        return false;
    for (size_t s = 0; s < MOST_SERVERS; s++)
        if (s < config->n ? !above_floor(config, config->starts[s]) : config->starts[s] != 0)
            return false;
    return true;
}

/* The start weights of a record as a list that a call takes, `starts_of(config), config.n`. */
static const uint64_t *starts_of(const tovridsa_config *config)
{
    static uint64_t list[MOST_SERVERS];

    for (size_t s = 0; s < MOST_SERVERS; s++)
        list[s] = config->starts[s];
    return list;
}

/* The check of a message by a record's cluster, or any refusal where that is none. */
static int64_t check_by(const tovridsa_config *config, const uint8_t *msg, size_t len)
{
    size_t starts_len = config->n <= MOST_SERVERS ? (size_t)config->n : MOST_SERVERS;

    return tovridsa_check(config->n, config->f, starts_of(config), starts_len, msg, len);
}

static int64_t weight_of(const tovridsa_config *config, const tovridsa_ledger *ledger, size_t server)
{
    int64_t weight = config->starts[server];

    for (size_t k = 0; k < MOST_SERVERS; k++) {
        weight += ledger->cells[MOST_SERVERS * k + server];
        weight -= ledger->cells[MOST_SERVERS * server + k];
    }
    return weight;
}

/* A row has cells for other servers of the cluster, and its total lies from its count to 16,000 times that. */
static bool row_fits(const tovridsa_config *config, const tovridsa_ledger *ledger, size_t giver)
{
    uint64_t total = 0;

    for (size_t taker = 0; taker < MOST_SERVERS; taker++) {
        uint64_t cell = ledger->cells[MOST_SERVERS * giver + taker];

        if (cell != 0 && (giver >= config->n || taker >= config->n || giver == taker))
            return false;
        total += cell;
    }
    return total >= ledger->counts[giver] && total <= (uint64_t)MOST_WEIGHT * ledger->counts[giver];
}

static bool ledger_fits(const tovridsa_config *config, const tovridsa_ledger *ledger)
{
    for (size_t s = 0; s < MOST_SERVERS; s++)
        if (!row_fits(config, ledger, s))
            return false;
    for (size_t s = 0; s < config->n; s++)
        if (!above_floor(config, weight_of(config, ledger, s)))
            return false;
    return true;
}

static bool register_fits(const tovridsa_register *reg)
{
    if (reg->stamp == 0 && reg->desk == 0)
        return reg->value.length == 0;
    return reg->stamp > 0 && reg->desk > 0 && reg->value.length <= MOST_VALUE;
}

static bool replica_fits(const tovridsa_config *config, const tovridsa_replica *replica)
{
    return ledger_fits(config, &replica->ledger) && register_fits(&replica->reg);
}

static bool operation_fits(const tovridsa_config *config, uint32_t round, const tovridsa_operation *operation)
{
    if (operation->mode > TOVRIDSA_ENDED || (operation->mode != TOVRIDSA_NONE && round == 0))
        return false;
    if (operation->kind > TOVRIDSA_WRITE || (operation->mode != TOVRIDSA_NONE && operation->kind == 0))
        return false;
    if (operation->phase > 2 || (operation->mode == TOVRIDSA_RUNNING && operation->phase == 0))
        return false;
    return operation->answered >> config->n == 0 && operation->restarts <= round && operation->value.length <= MOST_VALUE &&
           register_fits(&operation->chosen);
}

static bool server_fits(const tovridsa_server *server)
{
    return config_fits(&server->config) && server->number < server->config.n && replica_fits(&server->config, &server->replica);
}

static bool desk_fits(const tovridsa_desk *desk)
{
    return config_fits(&desk->config) && desk->number >= 1 && desk->number <= UINT16_MAX && replica_fits(&desk->config, &desk->replica) &&
           operation_fits(&desk->config, desk->round, &desk->operation);
}

/* ---- guarded memory */

enum { GUARD = 64, CANARY = 0xC5, ROOM = TOVRIDSA_LONGEST + 128, MOST_MESSAGE = TOVRIDSA_LONGEST + 64 };

static bool untouched(const uint8_t *bytes, size_t len)
{
    for (size_t k = 0; k < len; k++)
        if (bytes[k] != CANARY)
            return false;
    return true;
}

/* A buffer for what a call writes. */
static uint8_t room[GUARD + ROOM + GUARD];

/* The buffer of some length, empty ones by a null pointer. */
static uint8_t *fresh_room(size_t len)
{
    memset(room, CANARY, sizeof room);
    return len == 0 ? NULL : room + GUARD;
}

/* Whether the buffer is untouched but from a place to another. */
static bool room_kept(size_t from, size_t to)
{
    return untouched(room, GUARD + from) && untouched(room + GUARD + to, sizeof room - GUARD - to);
}

struct message {
    size_t length;
    uint8_t bytes[MOST_MESSAGE];
};

/* Where a message lies that a call reads, from an odd address on. */
static _Alignas(8) uint8_t letter[GUARD + 1 + MOST_MESSAGE + GUARD];

static const uint8_t *lay(const struct message *m)
{
    memset(letter, CANARY, sizeof letter);
    memcpy(letter + GUARD + 1, m->bytes, m->length);
    return m->length == 0 ? NULL : letter + GUARD + 1;
}

static bool letter_kept(const struct message *m)
{
    size_t end = GUARD + 1 + m->length;

    return untouched(letter, GUARD + 1) && memcmp(letter + GUARD + 1, m->bytes, m->length) == 0 && untouched(letter + end, sizeof letter - end);
}

/* A record that is lent. */
static struct {
    uint8_t before[GUARD];
    tovridsa_desk desk;
    uint8_t after[GUARD];
} lent;

_Static_assert(sizeof lent == GUARD + sizeof lent.desk + GUARD, "the guards do not lie beside the record");

/* ---- calls, each with what holds of it at any input */

/* A place in a buffer of some length. */
struct place {
    size_t len, at;
};

static const struct place roomy = {ROOM, 0};

static bool has_room(struct place place, size_t size)
{
    return place.at <= place.len && place.len - place.at >= size;
}

static int64_t refused(int number)
{
    return TOVRIDSA_REFUSED - number;
}

/* Any answer is a refusal from 1 to 15, or not below the least that the call tells. */
static void note_told(int64_t answer, int64_t least)
{
    int number = tovridsa_refusal(answer);

    calls++;
    CHECK(answer >= least || (answer <= refused(TOVRIDSA_BAD_HOUSE) && answer >= refused(TOVRIDSA_BAD_START)));
    if (number != 0) {
        refusals++;
        met[number]++;
    }
}

/* No call but quorum and margin tells a number below 0. */
static void note_answer(int64_t answer)
{
    note_told(answer, 0);
}

static bool same_server(const tovridsa_server *a, const tovridsa_server *b)
{
    return memcmp(a, b, sizeof *a) == 0;
}

static bool same_desk(const tovridsa_desk *a, const tovridsa_desk *b)
{
    return memcmp(a, b, sizeof *a) == 0;
}

static void note_server(int64_t answer, const tovridsa_server *before, const tovridsa_server *after)
{
    note_answer(answer);
    CHECK(answer == 0 ? server_fits(after) : same_server(before, after));
}

static void note_desk(int64_t answer, const tovridsa_desk *before, const tovridsa_desk *after)
{
    note_answer(answer);
    CHECK(answer == 0 ? desk_fits(after) : same_desk(before, after));
}

/* Fields of a message that passes its check. */
enum { KIND = 2, SERVER = 3, DESK = 4, ROUND = 6 };

enum { REQUEST = 1, REPLY = 2, SHARE = 3 };

static uint32_t number_at(const struct message *m, size_t from, size_t to)
{
    uint32_t number = 0;

    for (size_t k = from; k < to; k++)
        number = number << 8 | m->bytes[k];
    return number;
}

/* Both writers have this form: of a record and a server, into a buffer from a place on. */
typedef int64_t writer(const void *record, uint64_t server, uint8_t *out, struct place place);

static int64_t write_share(const void *record, uint64_t server, uint8_t *out, struct place place)
{
    (void)server;
    return tovridsa_share(*(const tovridsa_server *)record, out, place.len, place.at);
}

static int64_t write_request(const void *record, uint64_t server, uint8_t *out, struct place place)
{
    return tovridsa_ask(*(const tovridsa_desk *)record, server, out, place.len, place.at);
}

/* Writes with room enough, and then at the place given: the same bytes from there on, or NARROW. Where it has to refuse by another number, `expected`
 * is that. */
static int64_t try_writer(writer *write, const void *record, uint64_t server, const tovridsa_config *config, int64_t expected, struct place place)
{
    uint8_t whole[TOVRIDSA_LONGEST];
    int64_t first = write(record, server, fresh_room(ROOM), roomy);
    size_t size = first > 0 ? (size_t)first : 0;

    note_answer(first);
    CHECK(expected != 0 ? first == expected : size > 0 && size <= TOVRIDSA_LONGEST);
    CHECK(room_kept(0, size));
    memcpy(whole, room + GUARD, size);
    if (expected == 0)
        CHECK(check_by(config, whole, size) == 0);

    int64_t end = write(record, server, fresh_room(place.len), place);
    note_answer(end);
    if (expected != 0) {
        CHECK(end == expected && room_kept(0, 0));
    } else if (!has_room(place, size)) {
        CHECK(end == refused(TOVRIDSA_NARROW) && room_kept(0, 0));
    } else {
        CHECK((uint64_t)end == place.at + size && room_kept(place.at, place.at + size));
        CHECK(memcmp(room + GUARD + place.at, whole, size) == 0);
    }
    return end;
}

static int64_t try_share(const tovridsa_server *server, struct place place)
{
    return try_writer(write_share, server, 0, &server->config, server_fits(server) ? 0 : refused(TOVRIDSA_BAD_HOUSE), place);
}

static int64_t try_transfer(const tovridsa_server *server, uint64_t taker, uint64_t amount)
{
    tovridsa_server given = *server;
    tovridsa_server_answer answer = tovridsa_transfer(given, taker, amount);
    int64_t expected = 0;

    CHECK(same_server(&given, server));
    note_server(answer.answer, server, &answer.server);
    if (!server_fits(server))
        expected = refused(TOVRIDSA_BAD_HOUSE);
    else if (taker == server->number || taker >= server->config.n || amount == 0)
        expected = refused(TOVRIDSA_BAD_TRANSFER);
    else if (server->replica.ledger.counts[server->number] == UINT16_MAX)
        expected = refused(TOVRIDSA_SPENT);
    else if (amount > MOST_WEIGHT ||
             !above_floor(&server->config, weight_of(&server->config, &server->replica.ledger, server->number) - (int64_t)amount))
        expected = refused(TOVRIDSA_THIN);
    CHECK(answer.answer == expected);
    if (expected == 0) {
        given.replica.ledger.counts[given.number]++;
        given.replica.ledger.cells[MOST_SERVERS * given.number + taker] += (uint32_t)amount;
        CHECK(same_server(&given, &answer.server));
    }
    return answer.answer;
}

/* What serve refuses before it joins, or 0. */
static int64_t serve_expected(const tovridsa_server *server, const struct message *m)
{
    int64_t check = check_by(&server->config, m->bytes, m->length);

    if (!server_fits(server))
        return refused(TOVRIDSA_BAD_HOUSE);
    if (check != 0)
        return check;
    if (m->bytes[KIND] == REPLY || (m->bytes[KIND] == REQUEST && m->bytes[SERVER] != server->number))
        return refused(TOVRIDSA_STRAY);
    return 0;
}

static tovridsa_serve_answer serve_once(const tovridsa_server *server, const struct message *m, struct place place)
{
    tovridsa_server given = *server;
    tovridsa_serve_answer served = tovridsa_serve(given, lay(m), m->length, fresh_room(place.len), place.len, place.at);

    CHECK(same_server(&given, server) && letter_kept(m));
    note_server(served.answer, server, &served.server);
    return served;
}

/* Serves with room enough, and then at the place given. */
static int64_t try_serve(const tovridsa_server *server, const struct message *m, struct place place)
{
    uint8_t reply[TOVRIDSA_LONGEST];
    int64_t expected = serve_expected(server, m);
    tovridsa_serve_answer whole = serve_once(server, m, roomy);
    size_t size = (size_t)whole.end;

    CHECK(whole.answer == expected || (expected == 0 && whole.answer == refused(TOVRIDSA_CLASH)));
    CHECK(size <= TOVRIDSA_LONGEST && room_kept(0, size));
    CHECK((size > 0) == (whole.answer == 0 && m->bytes[KIND] == REQUEST));
    memcpy(reply, room + GUARD, size);
    if (size > 0) {
        CHECK(check_by(&server->config, reply, size) == 0);
        CHECK(reply[KIND] == REPLY && reply[SERVER] == server->number && memcmp(reply + DESK, m->bytes + DESK, 6) == 0);
    }

    tovridsa_serve_answer served = serve_once(server, m, place);
    if (size == 0 || has_room(place, size)) {
        CHECK(served.answer == whole.answer && served.end == place.at + size && same_server(&served.server, &whole.server));
        CHECK(size == 0 ? room_kept(0, 0) : room_kept(place.at, place.at + size) && memcmp(room + GUARD + place.at, reply, size) == 0);
    } else {
        CHECK(served.answer == refused(TOVRIDSA_NARROW) && served.end == place.at && room_kept(0, 0));
    }
    return served.answer;
}

/* What both begins refuse, or 0. */
static int64_t begin_expected(const tovridsa_desk *desk, size_t value_length)
{
    if (!desk_fits(desk))
        return refused(TOVRIDSA_BAD_HOUSE);
    if (value_length > MOST_VALUE)
        return refused(TOVRIDSA_LONG);
    if (desk->operation.mode == TOVRIDSA_RUNNING)
        return refused(TOVRIDSA_BUSY);
    if (desk->round == UINT32_MAX)
        return refused(TOVRIDSA_SPENT);
    return 0;
}

/* What a begin makes of a record: one round more, and the operation. */
static void check_begun(const tovridsa_desk *before, const tovridsa_desk *after, uint16_t kind, uint32_t note, const struct message *value)
{
    tovridsa_desk expected = *before;

    expected.round++;
    memset(&expected.operation, 0, sizeof expected.operation);
    expected.operation.mode = TOVRIDSA_RUNNING;
    expected.operation.note = note;
    expected.operation.kind = kind;
    expected.operation.phase = 1;
    expected.operation.value.length = (uint16_t)value->length;
    memcpy(expected.operation.value.bytes, value->bytes, value->length);
    CHECK(same_desk(&expected, after));
}

static int64_t try_begin_read(const tovridsa_desk *desk, uint32_t note)
{
    static const struct message none = {.length = 0};
    tovridsa_desk given = *desk;
    tovridsa_desk_answer begun = tovridsa_begin_read(given, note);

    CHECK(same_desk(&given, desk));
    note_desk(begun.answer, desk, &begun.desk);
    CHECK(begun.answer == begin_expected(desk, 0));
    if (begun.answer == 0)
        check_begun(desk, &begun.desk, TOVRIDSA_READ, note, &none);
    return begun.answer;
}

static int64_t try_begin_write(const tovridsa_desk *desk, uint32_t note, const struct message *value)
{
    tovridsa_desk given = *desk;
    tovridsa_desk_answer begun = tovridsa_begin_write(given, note, lay(value), value->length);

    CHECK(same_desk(&given, desk) && letter_kept(value));
    note_desk(begun.answer, desk, &begun.desk);
    CHECK(begun.answer == begin_expected(desk, value->length));
    if (begun.answer == 0)
        check_begun(desk, &begun.desk, TOVRIDSA_WRITE, note, value);
    return begun.answer;
}

static int64_t try_ask(const tovridsa_desk *desk, uint64_t server, struct place place)
{
    int64_t expected = 0;

    if (!desk_fits(desk))
        expected = refused(TOVRIDSA_BAD_HOUSE);
    else if (desk->operation.mode != TOVRIDSA_RUNNING)
        expected = refused(TOVRIDSA_IDLE);
    else if (server >= desk->config.n)
        expected = refused(TOVRIDSA_BAD_HOUSE);
    return try_writer(write_request, desk, server, &desk->config, expected, place);
}

/* What hear refuses before it joins, or LATE, or 0. */
static int64_t hear_expected(const tovridsa_desk *desk, const struct message *m)
{
    int64_t check = check_by(&desk->config, m->bytes, m->length);

    if (!desk_fits(desk))
        return refused(TOVRIDSA_BAD_HOUSE);
    if (check != 0)
        return check;
    if (m->bytes[KIND] != REPLY || number_at(m, DESK, ROUND) != desk->number)
        return refused(TOVRIDSA_STRAY);
    if (desk->operation.mode != TOVRIDSA_RUNNING || number_at(m, ROUND, ROUND + 4) != desk->round)
        return TOVRIDSA_LATE;
    return 0;
}

/* Hears by value, and on the record lent. */
static int64_t try_hear(const tovridsa_desk *desk, const struct message *m)
{
    tovridsa_desk given = *desk;
    int64_t expected = hear_expected(desk, m);
    tovridsa_desk_answer heard = tovridsa_hear(given, lay(m), m->length);

    CHECK(same_desk(&given, desk) && letter_kept(m));
    note_desk(heard.answer, desk, &heard.desk);
    CHECK(heard.answer == expected ||
          (expected == 0 && (heard.answer == refused(TOVRIDSA_CLASH) || heard.answer == refused(TOVRIDSA_SPENT))));

    memset(&lent, CANARY, sizeof lent);
    memcpy(&lent.desk, desk, sizeof *desk);
    int64_t answer = tovridsa_hear_lent(&lent.desk, lay(m), m->length);
    CHECK(letter_kept(m) && untouched(lent.before, GUARD) && untouched(lent.after, GUARD));
    note_desk(answer, desk, &lent.desk);
    CHECK(answer == heard.answer && same_desk(&lent.desk, &heard.desk));
    return answer;
}

/* What a call refuses that needs an operation in some mode, or 0. */
static int64_t mode_expected(const tovridsa_desk *desk, uint32_t mode)
{
    if (!desk_fits(desk))
        return refused(TOVRIDSA_BAD_HOUSE);
    return desk->operation.mode == mode ? 0 : refused(TOVRIDSA_IDLE);
}

static int64_t try_result(const tovridsa_desk *desk)
{
    static const tovridsa_register nothing;
    tovridsa_desk given = *desk;
    tovridsa_result_answer result = tovridsa_result(given);
    const tovridsa_register *chosen = &desk->operation.chosen;

    CHECK(same_desk(&given, desk));
    note_answer(result.answer);
    CHECK(result.answer == mode_expected(desk, TOVRIDSA_ENDED));
    if (result.answer != 0) {
        CHECK(result.restarts == 0 && result.kind == 0 && memcmp(&result.reg, &nothing, sizeof nothing) == 0);
        return result.answer;
    }
    CHECK(result.restarts == desk->operation.restarts && result.kind == desk->operation.kind);
    CHECK(result.reg.stamp == chosen->stamp && result.reg.desk == chosen->desk && result.reg.value.length == chosen->value.length);
    CHECK(memcmp(result.reg.value.bytes, chosen->value.bytes, chosen->value.length) == 0);
    return result.answer;
}

/* Twice the weight of the servers that have answered, less that of all. */
static int64_t margin_of(const tovridsa_desk *desk)
{
    int64_t margin = -total_of(&desk->config);

    for (size_t s = 0; s < desk->config.n; s++)
        if ((desk->operation.answered >> s & 1) != 0)
            margin += 2 * weight_of(&desk->config, &desk->replica.ledger, s);
    return margin;
}

static int64_t try_margin(const tovridsa_desk *desk)
{
    tovridsa_desk given = *desk;
    int64_t margin = tovridsa_margin(given);
    int64_t expected = mode_expected(desk, TOVRIDSA_RUNNING);

    CHECK(same_desk(&given, desk));
    note_told(margin, -MOST_WEIGHT);
    CHECK(margin <= MOST_WEIGHT && margin == (expected == 0 ? margin_of(desk) : expected));
    return margin;
}

static int64_t try_drop(const tovridsa_desk *desk)
{
    tovridsa_desk given = *desk;
    tovridsa_desk_answer dropped = tovridsa_drop(given);

    CHECK(same_desk(&given, desk));
    note_desk(dropped.answer, desk, &dropped.desk);
    CHECK(dropped.answer == mode_expected(desk, TOVRIDSA_RUNNING));
    if (dropped.answer == 0) {
        memset(&given.operation, 0, sizeof given.operation);
        CHECK(same_desk(&given, &dropped.desk));
    }
    return dropped.answer;
}

/* ---- samples: records from a run, each with the message that came next */

enum { MOST_SAMPLES = 256 };

static struct server_sample {
    tovridsa_server server;
    struct message message;
} server_samples[MOST_SAMPLES];

static struct desk_sample {
    tovridsa_desk desk;
    struct message message;
} desk_samples[MOST_SAMPLES];

static size_t server_count, desk_count;

static void keep_server(const tovridsa_server *server, const struct message *m)
{
    CHECK(server_count < MOST_SAMPLES);
    server_samples[server_count++] = (struct server_sample){*server, *m};
}

static void keep_desk(const tovridsa_desk *desk, const struct message *m)
{
    CHECK(desk_count < MOST_SAMPLES);
    desk_samples[desk_count++] = (struct desk_sample){*desk, *m};
}

/* A desk asks a server, which replies. */
static struct message reply_to(const tovridsa_desk *desk, tovridsa_server *server)
{
    struct message request = {.length = 0}, reply = {.length = 0};
    int64_t end = tovridsa_ask(*desk, server->number, request.bytes, MOST_MESSAGE, 0);

    CHECK(end > 0);
    request.length = (size_t)end;
    keep_server(server, &request);
    tovridsa_serve_answer served = tovridsa_serve(*server, request.bytes, request.length, reply.bytes, MOST_MESSAGE, 0);
    CHECK(served.answer == 0);
    *server = served.server;
    reply.length = (size_t)served.end;
    return reply;
}

/* The same, and the desk hears the reply. What it would hold had it dropped its operation is a sample too, and what it holds at the end. */
static void visit(tovridsa_desk *desk, tovridsa_server *server)
{
    struct message reply = reply_to(desk, server);
    tovridsa_desk_answer heard = tovridsa_hear(*desk, reply.bytes, reply.length);
    tovridsa_desk_answer dropped = tovridsa_drop(*desk);

    CHECK(heard.answer == 0 && dropped.answer == 0);
    keep_desk(desk, &reply);
    if (desk->operation.answered == 0)
        keep_desk(&dropped.desk, &reply);
    if (heard.desk.operation.mode == TOVRIDSA_ENDED)
        keep_desk(&heard.desk, &reply);
    *desk = heard.desk;
}

/* A server gives weight and tells another one. */
static void give(tovridsa_server *giver, tovridsa_server *taker, uint64_t amount)
{
    struct message told = {.length = 0};
    tovridsa_server_answer given = tovridsa_transfer(*giver, taker->number, amount);

    CHECK(given.answer == 0);
    *giver = given.server;
    int64_t end = tovridsa_share(*giver, told.bytes, MOST_MESSAGE, 0);
    CHECK(end > 0);
    told.length = (size_t)end;
    keep_server(taker, &told);
    tovridsa_serve_answer served = tovridsa_serve(*taker, told.bytes, told.length, NULL, 0, 0);
    CHECK(served.answer == 0);
    *taker = served.server;
}

/* Goes round the servers, up to the end of the operation. */
static void carry_out(tovridsa_desk *desk, tovridsa_server *servers)
{
    for (size_t s = 0; desk->operation.mode == TOVRIDSA_RUNNING; s = (s + 1) % desk->config.n)
        visit(desk, &servers[s]);
}

static const uint64_t level[MOST_SERVERS] = {1000, 1000, 1000, 1000, 1000, 1000, 1000, 1000, 1000, 1000, 1000, 1000, 1000, 1000, 1000, 1000};
static const uint64_t strong[5] = {2200, 701, 751, 699, 701};
static const uint64_t least[1] = {1};

/* A write and a read by two desks of a cluster, with gifts before and between. */
static void play(uint64_t n, uint64_t f, const uint64_t *starts)
{
    static const uint8_t map[] = {0xA0, 0x07, 0x00};
    tovridsa_server servers[MOST_SERVERS];
    tovridsa_desk desks[2];

    for (size_t s = 0; s < n; s++)
        servers[s] = tovridsa_open_server(n, f, s, starts, n).server;
    for (size_t d = 0; d < 2; d++)
        desks[d] = tovridsa_open_desk(n, f, 7 + 1000 * d, starts, n).desk;
    desks[0] = tovridsa_begin_write(desks[0], 0xDEADBEEF, map, sizeof map).desk;
    visit(&desks[0], &servers[0]);
    if (n > 2)
        give(&servers[1], &servers[2], 50);
    carry_out(&desks[0], servers);
    if (n > 3)
        give(&servers[2], &servers[3], 20);
    desks[1] = tovridsa_begin_read(desks[1], 0).desk;
    carry_out(&desks[1], servers);
}

/* A desk in its last round, with a reply of that round; and one that holds the last stamp. */
static void keep_desk_ends(const struct desk_sample *sample)
{
    struct desk_sample last = *sample;

    last.desk.round = UINT32_MAX;
    memset(last.message.bytes + ROUND, 0xFF, 4);
    keep_desk(&last.desk, &last.message);
    last = *sample;
    last.desk.replica.reg.stamp = UINT32_MAX;
    last.desk.replica.reg.desk = 1;
    keep_desk(&last.desk, &last.message);
}

/* A server that has made its last transfer. Another one gave it back as much as it gave, so that nobody is light. */
static void keep_server_end(const struct server_sample *sample)
{
    tovridsa_server last = sample->server;
    tovridsa_ledger *ledger = &last.replica.ledger;
    size_t own = (size_t)last.number;
    size_t other = own == 0 ? 1 : 0;

    ledger->counts[own] = ledger->counts[other] = UINT16_MAX;
    ledger->cells[MOST_SERVERS * own + other] += UINT16_MAX;
    ledger->cells[MOST_SERVERS * other + own] += UINT16_MAX;
    keep_server(&last, &sample->message);
}

static void gather(void)
{
    part = "gathering samples";
    play(1, 0, least);
    play(2, 0, level);
    play(5, 1, level);
    play(5, 1, strong);
    play(16, 7, level);
    keep_server_end(&server_samples[server_count - 1]);
    for (size_t k = 0, count = desk_count; k < count; k += 5)
        keep_desk_ends(&desk_samples[k]);
    for (size_t k = 0; k < server_count; k++)
        CHECK(server_fits(&server_samples[k].server));
    for (size_t k = 0; k < desk_count; k++)
        CHECK(desk_fits(&desk_samples[k].desk));
}

/* ---- cases */

static size_t any_place(size_t len)
{
    static const size_t beyond[] = {SIZE_MAX, SIZE_MAX - 1, SIZE_MAX - 5, SIZE_MAX - TOVRIDSA_LONGEST, SIZE_MAX / 2, SIZE_MAX / 2 + 1, UINT32_MAX};

    switch (random_below(8)) {
    case 0:
        return beyond[random_below(sizeof beyond / sizeof beyond[0])];
    case 1:
        return len + random_below(4);
    case 2:
        return (size_t)next_random();
    default:
        return random_below(len + 2);
    }
}

static struct place any_room(void)
{
    struct place place;

    place.len = one_in(3) ? random_below(ROOM + 1) : one_in(8) ? 0 : ROOM;
    place.at = any_place(place.len);
    return place;
}

static void random_bytes(uint8_t *bytes, size_t len)
{
    for (size_t k = 0; k < len; k++)
        bytes[k] = (uint8_t)next_random();
}

static void flip(void *bytes, size_t bit)
{
    ((uint8_t *)bytes)[bit / 8] ^= (uint8_t)(1u << bit % 8);
}

/* Cuts a message, adds to it, or turns some of its bits. */
static void damage(struct message *m)
{
    size_t more;

    switch (random_below(3)) {
    case 0:
        m->length = random_below(m->length + 1);
        break;
    case 1:
        more = 1 + random_below(MOST_MESSAGE - m->length);
        random_bytes(m->bytes + m->length, more);
        m->length += more;
        break;
    default:
        for (more = 1 + random_below(3); more > 0 && m->length > 0; more--)
            flip(m->bytes, random_below(8 * m->length));
    }
}

/* A message from a run, the likely one or another, or random bytes; half of all are damaged. */
static struct message any_message(const struct message *likely)
{
    struct message m = *likely;

    switch (random_below(6)) {
    case 0:
        m = server_samples[random_below(server_count)].message;
        break;
    case 1:
        m = desk_samples[random_below(desk_count)].message;
        break;
    case 2:
        m.length = random_below(one_in(2) ? 40 : MOST_MESSAGE + 1);
        random_bytes(m.bytes, m.length);
        if (one_in(2))
            m.bytes[0] = 0; /* or few would have a map that may be one */
        break;
    default:
        break;
    }
    if (one_in(2) && m.length < MOST_MESSAGE)
        damage(&m);
    return m;
}

static struct message any_value(void)
{
    struct message m = {.length = random_below(one_in(4) ? MOST_MESSAGE + 1 : MOST_VALUE + 1)};

    random_bytes(m.bytes, m.length);
    return m;
}

/* Every call on a server's record. */
static void try_server(const tovridsa_server *server, const struct message *m)
{
    uint64_t taker = one_in(2) ? random_below(MOST_SERVERS) : any_number();

    try_share(server, any_room());
    try_transfer(server, taker, one_in(2) ? random_below(500) : any_number());
    try_serve(server, m, any_room());
}

/* Every call on a desk's record. */
static void try_desk(const tovridsa_desk *desk, const struct message *m)
{
    struct message value = any_value();
    uint64_t server = one_in(2) ? random_below(MOST_SERVERS) : any_number();

    try_begin_read(desk, (uint32_t)next_random());
    try_begin_write(desk, (uint32_t)next_random(), &value);
    try_ask(desk, server, any_room());
    try_hear(desk, m);
    try_result(desk);
    try_margin(desk);
    try_drop(desk);
}

/* What a proper reply, a torn, a stray and a late one do, at every desk of the samples. */
static void test_replies(void)
{
    part = "replies";
    for (size_t k = 0; k < desk_count; k++) {
        const tovridsa_desk *desk = &desk_samples[k].desk;
        struct message m = desk_samples[k].message;
        int64_t answer = try_hear(desk, &m);

        CHECK(desk->operation.mode == TOVRIDSA_RUNNING ? answer == 0 || answer == refused(TOVRIDSA_SPENT) : answer == TOVRIDSA_LATE);
        m.bytes[DESK] ^= 1;
        CHECK(try_hear(desk, &m) == refused(TOVRIDSA_STRAY));
        m.bytes[DESK] ^= 1;
        m.bytes[ROUND + 2] ^= 1;
        CHECK(try_hear(desk, &m) == TOVRIDSA_LATE);
        m.bytes[ROUND + 2] ^= 1;
        while (m.length > 0) {
            m.length--;
            CHECK(try_hear(desk, &m) == refused(TOVRIDSA_TORN));
        }
    }
    for (size_t k = 0; k < server_count; k++)
        for (size_t d = 0; d < desk_count; d++)
            if (memcmp(&desk_samples[d].desk.config, &server_samples[k].server.config, sizeof(tovridsa_config)) == 0)
                CHECK(try_hear(&desk_samples[d].desk, &server_samples[k].message) == refused(TOVRIDSA_STRAY));
}

/* Each length of the buffer and each place about the size of a message. A share is served at any place, and nothing is written. */
static void test_places(void)
{
    static const size_t places[] = {0, 1, ROOM, ROOM + 1, SIZE_MAX, SIZE_MAX - 1, SIZE_MAX - 5};

    part = "places";
    for (size_t k = 0; k < server_count; k += 3) {
        const tovridsa_server *server = &server_samples[k].server;
        const struct message *m = &server_samples[k].message;

        for (size_t at = 0; at < 9; at++)
            for (size_t len = 0; len < at + m->length + 40; len++) {
                try_share(server, (struct place){len, at});
                try_serve(server, m, (struct place){len, at});
            }
        for (size_t j = 0; j < sizeof places / sizeof places[0]; j++) {
            tovridsa_serve_answer served = serve_once(server, m, (struct place){0, places[j]});

            CHECK(served.end == places[j] && (served.answer == 0) == (m->bytes[KIND] == SHARE));
            try_share(server, (struct place){ROOM, places[j]});
        }
    }
}

/* Null pointers beside the length 0. */
static void test_nothing(void)
{
    static const struct message none = {.length = 0};
    tovridsa_desk desk = tovridsa_open_desk(5, 1, 1, level, 5).desk;

    part = "nothing";
    CHECK(try_hear(&desk, &none) == refused(TOVRIDSA_TORN));
    CHECK(try_begin_write(&desk, 0, &none) == 0);
    CHECK(try_serve(&server_samples[0].server, &none, (struct place){0, 0}) == refused(TOVRIDSA_TORN));
    CHECK(try_share(&server_samples[0].server, (struct place){0, 0}) == refused(TOVRIDSA_NARROW));
    CHECK(try_ask(&desk_samples[0].desk, 0, (struct place){0, 0}) == refused(TOVRIDSA_NARROW));
    CHECK(tovridsa_check(5, 1, level, 5, NULL, 0) == refused(TOVRIDSA_TORN));
    CHECK(tovridsa_weight(5, 1, level, 5, 0, NULL, 0) == refused(TOVRIDSA_TORN));
    CHECK(tovridsa_quorum(5, 1, level, 5, 0, NULL, 0) == refused(TOVRIDSA_TORN));
    CHECK(tovridsa_check(5, 1, NULL, 0, NULL, 0) == refused(TOVRIDSA_BAD_START));
    CHECK(tovridsa_weight(5, 1, NULL, 0, 0, NULL, 0) == refused(TOVRIDSA_BAD_START));
    CHECK(tovridsa_quorum(5, 1, NULL, 0, 0, NULL, 0) == refused(TOVRIDSA_BAD_START));
    CHECK(tovridsa_open_server(5, 1, 0, NULL, 0).answer == refused(TOVRIDSA_BAD_START));
    CHECK(tovridsa_open_desk(5, 1, 1, NULL, 0).answer == refused(TOVRIDSA_BAD_START));
    CHECK(tovridsa_seats(NULL, 0) == 0);
}

/* ---- openings */

/* A list of start weights, which lies between numbers that no call may touch. */
enum { MOST_STARTS = 40 };

static uint64_t list_room[GUARD + MOST_STARTS + GUARD];

static const uint64_t *lay_list(const uint64_t *starts, size_t len)
{
    memset(list_room, CANARY, sizeof list_room);
    for (size_t k = 0; k < len; k++)
        list_room[GUARD + k] = starts[k];
    return len == 0 ? NULL : list_room + GUARD;
}

static bool list_kept(const uint64_t *starts, size_t len)
{
    for (size_t k = 0; k < len; k++)
        if (list_room[GUARD + k] != starts[k])
            return false;
    return untouched((const uint8_t *)list_room, GUARD * sizeof list_room[0]) &&
           untouched((const uint8_t *)(list_room + GUARD + len), (MOST_STARTS - len + GUARD) * sizeof list_room[0]);
}

/* The cluster that a list makes, and whether it makes one; n and f are within bounds. */
static bool list_fits(uint64_t n, uint64_t f, const uint64_t *starts, size_t len, tovridsa_config *config)
{
    *config = (tovridsa_config){.n = n, .f = f};
    if (len != n)
        return false;
    for (size_t s = 0; s < n; s++) {
        if (starts[s] > MOST_WEIGHT)
            return false;
        config->starts[s] = (uint16_t)starts[s];
    }
    return config_fits(config);
}

/* What an opening answers, with a number that the party may have or may not. */
static int64_t open_expected(uint64_t n, uint64_t f, bool number_fits, bool starts_fit)
{
    if (!bounds_fit(n, f) || !number_fits)
        return refused(TOVRIDSA_BAD_HOUSE);
    return starts_fit ? 0 : refused(TOVRIDSA_BAD_START);
}

static void test_open(uint64_t n, uint64_t f, uint64_t number, const uint64_t *starts, size_t len)
{
    static const tovridsa_server no_server;
    static const tovridsa_desk no_desk;
    static const uint8_t fresh_share[] = {0x00, 0x03, 0x03, 0x00};
    tovridsa_config config = {.n = 0};
    bool fit = bounds_fit(n, f) && list_fits(n, f, starts, len, &config);
    int64_t of_server = open_expected(n, f, number < n, fit);
    int64_t of_desk = open_expected(n, f, number >= 1 && number <= UINT16_MAX, fit);
    int64_t of_message = open_expected(n, f, true, fit);

    tovridsa_server_answer server = tovridsa_open_server(n, f, number, lay_list(starts, len), len);
    note_answer(server.answer);
    CHECK(server.answer == of_server && list_kept(starts, len));
    tovridsa_desk_answer desk = tovridsa_open_desk(n, f, number, lay_list(starts, len), len);
    note_answer(desk.answer);
    CHECK(desk.answer == of_desk && list_kept(starts, len));

    tovridsa_server fresh_server = {.config = config, .number = number};
    tovridsa_desk fresh_desk = {.config = config, .number = number};
    CHECK(same_server(&server.server, of_server == 0 ? &fresh_server : &no_server));
    CHECK(same_desk(&desk.desk, of_desk == 0 ? &fresh_desk : &no_desk));

    /* A message is looked at once the cluster is one. */
    const uint64_t *list = lay_list(starts, len);
    CHECK(tovridsa_check(n, f, list, len, NULL, 0) == (of_message == 0 ? refused(TOVRIDSA_TORN) : of_message));
    CHECK(tovridsa_check(n, f, list, len, fresh_share, sizeof fresh_share) == of_message);
    CHECK(tovridsa_weight(n, f, list, len, 0, fresh_share, sizeof fresh_share) == (of_message == 0 ? config.starts[0] : of_message));
    CHECK(tovridsa_quorum(n, f, list, len, 0, fresh_share, sizeof fresh_share) == (of_message == 0 ? -total_of(&config) : of_message));
    CHECK(list_kept(starts, len));
}

/* Changes a list of some length, of which there is one entry at least and room for one more. */
static size_t disturb_list(uint64_t *starts, size_t len)
{
    size_t one = random_below(len);
    uint64_t large = next_random() | UINT64_C(1) << 20;

    switch (random_below(8)) {
    case 0:
        return len - 1;
    case 1:
        starts[len] = one_in(2) ? 0 : random_below(2000);
        return len + 1;
    case 2:
        starts[one] = any_number();
        break;
    case 3: /* the sum is as before if it wraps */
        starts[one] += large;
        starts[(one + 1) % len] -= large;
        break;
    case 4:
        starts[one] += random_below(16) * 1000;
        break;
    case 5:
        starts[one] = random_below(1000);
        break;
    case 6:
        starts[one] += UINT64_C(1) << (16 + random_below(48));
        break;
    default:
        for (size_t s = 0; s < len; s++)
            starts[s] = random_below(one_in(2) ? 3 : 2000);
    }
    return len;
}

/* Lists at their edges, and lists that are drawn. */
static void test_lists(void)
{
    static const uint64_t pairs[][2] = {{299, 100}, {300, 100}, {1, 1}, {0, 0}, {8000, 8000}, {8000, 8001}, {11999, 4001}, {12000, 4000},
                                        {UINT64_C(1) << 63, UINT64_C(1) << 63}, {UINT64_MAX, 17}, {UINT64_MAX, UINT64_MAX}};
    static const uint64_t alone[] = {0, 1, 16000, 16001, 65535, 65536, 65537, UINT64_MAX};

    part = "lists";
    for (size_t k = 0; k < sizeof pairs / sizeof pairs[0]; k++)
        for (size_t len = 0; len <= 2; len++)
            test_open(2, 0, 1, pairs[k], len);
    for (size_t k = 0; k < sizeof alone / sizeof alone[0]; k++)
        test_open(1, 0, 0, &alone[k], 1);
    for (size_t k = 0; k < RANDOM_CASES; k++) {
        uint64_t starts[MOST_STARTS];
        uint64_t n = 1 + random_below(MOST_SERVERS);
        uint64_t f = random_below((size_t)(n + 1) / 2);
        size_t len = (size_t)n;

        for (size_t s = 0; s < len; s++)
            starts[s] = one_in(2) ? 1000 : 900 + random_below(101);
        if (!one_in(3))
            len = disturb_list(starts, len);
        test_open(one_in(16) ? any_number() : n, one_in(16) ? any_number() : f, one_in(8) ? any_number() : random_below(n), starts, len);
    }
}

/* Numbers at and beyond the ends of their ranges, in every call that takes one. */
static void test_numbers(void)
{
    part = "numbers";
    for (size_t i = 0; i < NUMBERS; i++)
        for (size_t j = 0; j < NUMBERS; j++) {
            for (size_t k = 0; k < NUMBERS; k++)
                test_open(numbers[i], numbers[j], numbers[k], level, numbers[i] <= MOST_SERVERS ? (size_t)numbers[i] : MOST_SERVERS);
            for (size_t k = 0; k < server_count; k += 7)
                try_transfer(&server_samples[k].server, numbers[i], numbers[j]);
        }
    for (size_t i = 0; i < NUMBERS; i++)
        for (size_t k = 0; k < desk_count; k++)
            try_ask(&desk_samples[k].desk, numbers[i], roomy);
    for (uint64_t amount = 0; amount < 1000; amount++)
        for (size_t k = 0; k < server_count; k += 7)
            try_transfer(&server_samples[k].server, 0, amount);
}

/* A record with one bit of one field turned, for each. */
static void turn_server_bits(const struct server_sample *sample)
{
    for (size_t bit = 0; bit < 8 * sizeof(tovridsa_server); bit++) {
        tovridsa_server server = sample->server;

        flip(&server, bit);
        try_server(&server, &sample->message);
    }
}

static void turn_desk_bits(const struct desk_sample *sample)
{
    for (size_t bit = 0; bit < 8 * sizeof(tovridsa_desk); bit++) {
        tovridsa_desk desk = sample->desk;

        flip(&desk, bit);
        try_desk(&desk, &sample->message);
    }
}

/* Kinds and phases up to two past the last, whatever the mode. */
static void try_kinds_and_phases(const struct desk_sample *sample)
{
    for (uint16_t kind = 0; kind <= 4; kind++)
        for (uint16_t phase = 0; phase <= 4; phase++) {
            tovridsa_desk desk = sample->desk;

            desk.operation.kind = kind;
            desk.operation.phase = phase;
            try_desk(&desk, &sample->message);
        }
}

/* Some servers, and of the cluster of five with a strong server a desk in each mode and phase. */
static void test_bits(void)
{
    bool tried[TOVRIDSA_ENDED + 1][3] = {{false}};

    part = "bits";
    for (size_t k = 0; k < server_count; k += 25)
        turn_server_bits(&server_samples[k]);
    for (size_t k = 0; k < desk_count; k++) {
        const tovridsa_desk *desk = &desk_samples[k].desk;
        bool *done = &tried[desk->operation.mode][desk->operation.phase];

        if (desk->config.starts[0] == strong[0] && !*done) {
            *done = true;
            turn_desk_bits(&desk_samples[k]);
            try_kinds_and_phases(&desk_samples[k]);
        }
    }
    CHECK(tried[TOVRIDSA_NONE][0] && tried[TOVRIDSA_RUNNING][1] && tried[TOVRIDSA_RUNNING][2] && tried[TOVRIDSA_ENDED][0]);
}

/* Leaves a record as it was, turns some of its bits, or fills a part of it. */
static void disturb(void *record, size_t size)
{
    size_t from = random_below(size);

    switch (random_below(3)) {
    case 0:
        break;
    case 1:
        for (size_t bits = 1 + random_below(4); bits > 0; bits--)
            flip(record, random_below(8 * size));
        break;
    default:
        random_bytes((uint8_t *)record + from, 1 + random_below(one_in(2) ? size - from : 1));
    }
}

static void test_random(void)
{
    part = "random cases";
    for (size_t k = 0; k < RANDOM_CASES; k++) {
        if (one_in(2)) {
            struct server_sample sample = server_samples[random_below(server_count)];

            disturb(&sample.server, sizeof sample.server);
            sample.message = any_message(&sample.message);
            try_server(&sample.server, &sample.message);
        } else {
            struct desk_sample sample = desk_samples[random_below(desk_count)];

            disturb(&sample.desk, sizeof sample.desk);
            sample.message = any_message(&sample.message);
            try_desk(&sample.desk, &sample.message);
        }
    }
}

int main(int argc, char **argv)
{
    if (argc > 1)
        seed = strtoull(argv[1], NULL, 10);
    chance = seed;
    gather();
    test_replies();
    test_places();
    test_nothing();
    test_numbers();
    test_lists();
    test_bits();
    test_random();
    part = "the end";
    for (int number = TOVRIDSA_BAD_HOUSE; number <= TOVRIDSA_BAD_START; number++)
        CHECK(met[number] > 0);
    printf("records: seed %" PRIu64 ", %" PRIu64 " calls, of which %" PRIu64 " were refused; each number from 1 to 15 was met\n", seed, calls,
           refusals);
    return 0;
}
