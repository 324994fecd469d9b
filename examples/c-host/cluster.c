/*
 * A cluster in memory, through tovridsa.h alone: five servers, of which one weighs more than the others at the start, four desks, and a network that
 * loses, doubles, cuts and reorders messages. The desks look at a block of seats, sell and take back, while weight moves between the servers and one of
 * them crashes.
 *
 *     cluster [seed [errands]]
 *
 * Beside the store the program keeps what the proofs promise of every run, and holds each message and each operation to it. It ends with status 1 at
 * the first difference. What it checks:
 *
 *   messages   each message sent passes its check; by its sheet the weights total 5,000, each is above the floor, and any four servers are a quorum
 *   answers    a message that arrives whole is taken, or comes too late at a desk; one that was cut is refused as torn
 *   order      an operation that begins after another one ended has a tag no lower, and a higher one where it writes
 *   values     no two writes have the same tag; a read finds the empty start, or what the write with its tag wrote
 *   restarts   an operation reports one for each reply that told its desk of a transfer that no earlier reply had told it of
 *   margins    while an operation runs, its desk's margin is not above 0, and is what its request says of the servers that have answered
 *   tickets    a desk that sells finds every seat sold for which somebody has a ticket, and no ticket is handed out twice
 *
 * The last one is the store's promise and the desks' own care together. The store is a register and no lock: a write replaces the whole map, whatever
 * its desk had read before. So only one desk at a time sells or takes back, and it does not give up once it writes; the others may look meanwhile.
 */
#include "tovridsa.h"

#include <inttypes.h>
#include <stdarg.h>
#include <stdbool.h>
#include <stdio.h>
#include <stdlib.h>
#include <string.h>

/* The house: servers 1 to 4 weigh the same at the start, and server 0 is a strong one. All together weigh 5,000. */
enum { SERVERS = 5, CRASHES = 1, DESKS = 4, WEAK = 850, STRONG = 1600, TOTAL = STRONG + (SERVERS - 1) * WEAK };

static const uint64_t starts[SERVERS] = {STRONG, WEAK, WEAK, WEAK, WEAK};

/* The block: its bytes, its seats, the seats of a row, and the most that one party takes. */
enum { BLOCK = 6, SEATS = 8 * BLOCK, ROW = 16, PARTY = 4 };

/* What the network does to a message: one in so many. */
enum { LOST = 8, DOUBLED = 8, CUT = 40 };

/* What happens at a step of the busy hours, besides a message that arrives: one step in so many. */
enum { SETTING_OUT = 6, GIVING_WEIGHT = 100, GIVING_UP = 500 };

/* Of the changes of the map, one in so many takes seats back. The most weight that is given at once. */
enum { TAKING_BACK = 3, GIFT = 400 };

/* How many steps a desk waits for replies before it asks again, and how many steps a run has at most. That an operation ends nobody can promise while
 * messages may be lost, but on this network it takes some hundred steps. */
enum { PATIENCE = 80, MOST_STEPS = 10000000 };

/* How many errands there are where the second argument does not say, and at most; how many messages are on their way at most. */
enum { ERRANDS = 40, MOST_ERRANDS = 10000, MOST_FLYING = 512 };

/* The phase in which an operation has chosen its register. */
enum { PHASE_TWO = 2 };

/* ---- chance, the clock, and failure */

static uint64_t seed = 1;
static uint64_t chance;
static uint64_t clock_steps;

/* The generator splitmix64: small, and the same everywhere. */
static uint64_t next_random(void)
{
    uint64_t z = chance += UINT64_C(0x9E3779B97F4A7C15);

    z = (z ^ (z >> 30)) * UINT64_C(0xBF58476D1CE4E5B9);
    z = (z ^ (z >> 27)) * UINT64_C(0x94D049BB133111EB);
    return z ^ (z >> 31);
}

static unsigned random_below(unsigned bound)
{
    return (unsigned)(next_random() % bound);
}

static bool one_in(unsigned many)
{
    return random_below(many) == 0;
}

/* Ends the program unless what should hold does. */
static void expect(bool holds, const char *what, ...)
{
    va_list rest;

    if (holds)
        return;
    fflush(stdout);
    fprintf(stderr, "seed %" PRIu64 ", step %" PRIu64 ": ", seed, clock_steps);
    va_start(rest, what);
    vfprintf(stderr, what, rest);
    va_end(rest);
    fprintf(stderr, "\n");
    exit(1);
}

/* ---- the network */

/* Addresses: server s has s, desk d has FIRST_DESK + d. */
enum { FIRST_DESK = 16 };

/* A frame is the host's own two bytes, the addresses of the receiver and the sender, and then a message of the store, written from place HEAD on. */
enum { TO = 0, FROM = 1, HEAD = 2 };

struct frame {
    uint8_t bytes[HEAD + TOVRIDSA_LONGEST];
    size_t length;
    /* For the checks alone, and not known to the receiver: whether it was cut, and how many transfers of each server its sender knew. */
    bool cut;
    uint16_t known[SERVERS];
};

static struct frame flying[MOST_FLYING];
static unsigned flying_count;

static struct {
    unsigned sent, lost, doubled, cut, unserved;
    unsigned requests, shares, torn;
    unsigned heard, late, restarts;
} counted;

/* What the proofs say of every message sent. */
static void check_message(const uint8_t *msg, size_t len)
{
    int64_t total = 0;

    expect(tovridsa_check(SERVERS, CRASHES, starts, SERVERS, msg, len) == 0, "a message that was sent does not pass");
    for (unsigned s = 0; s < SERVERS; s++) {
        int64_t weight = tovridsa_weight(SERVERS, CRASHES, starts, SERVERS, s, msg, len);
        unsigned others = ((1u << SERVERS) - 1) & ~(1u << s);

        expect(weight * 2 * (SERVERS - CRASHES) > TOTAL, "server %u weighs %" PRId64 ", which is not above the floor", s, weight);
        expect(tovridsa_quorum(SERVERS, CRASHES, starts, SERVERS, others, msg, len) > 0, "all servers but %u are no quorum", s);
        total += weight;
    }
    expect(total == TOTAL, "the weights total %" PRId64, total);
}

/* Puts a copy of a frame on its way, perhaps without its end. A network that is full loses it. */
static void fly(const struct frame *frame)
{
    struct frame *f;

    if (flying_count == MOST_FLYING) {
        counted.lost++;
        return;
    }
    f = &flying[flying_count++];
    *f = *frame;
    f->cut = one_in(CUT);
    if (f->cut) {
        f->length -= 1 + random_below((unsigned)(f->length - HEAD));
        counted.cut++;
    }
}

/* Sends the message that stands in a frame from HEAD up to a place. */
static void send_frame(struct frame *frame, unsigned to, unsigned from, uint64_t end, const tovridsa_ledger *ledger)
{
    frame->bytes[TO] = (uint8_t)to;
    frame->bytes[FROM] = (uint8_t)from;
    frame->length = (size_t)end;
    memcpy(frame->known, ledger->counts, sizeof frame->known);
    check_message(frame->bytes + HEAD, frame->length - HEAD);
    counted.sent++;
    if (one_in(LOST)) {
        counted.lost++;
        return;
    }
    fly(frame);
    if (one_in(DOUBLED)) {
        counted.doubled++;
        fly(frame);
    }
}

/* ---- servers */

static struct server {
    tovridsa_server record;
    bool crashed;
} servers[SERVERS];

static unsigned gifts, gifts_refused;

static void open_servers(void)
{
    for (unsigned s = 0; s < SERVERS; s++) {
        tovridsa_server_answer opened = tovridsa_open_server(SERVERS, CRASHES, s, starts, SERVERS);

        expect(opened.answer == 0, "server %u is not opened", s);
        servers[s].record = opened.server;
    }
}

/* A server takes what arrives for it, and replies to a request. A crashed one takes no step any more. */
static void server_takes(unsigned s, const struct frame *frame)
{
    struct server *server = &servers[s];
    struct frame reply = {.length = 0};

    if (server->crashed) {
        counted.unserved++;
        return;
    }
    tovridsa_serve_answer served =
        tovridsa_serve(server->record, frame->bytes + HEAD, frame->length - HEAD, reply.bytes, sizeof reply.bytes, HEAD);
    if (frame->cut) {
        expect(tovridsa_refusal(served.answer) == TOVRIDSA_TORN, "server %u answers %" PRId64 " to a message cut short", s, served.answer);
        counted.torn++;
        return;
    }
    expect(served.answer == 0, "server %u answers %" PRId64 " to a message", s, served.answer);
    server->record = served.server;
    if (served.end == HEAD) {
        counted.shares++;
        return;
    }
    counted.requests++;
    send_frame(&reply, frame->bytes[FROM], s, served.end, &server->record.replica.ledger);
}

/* A server tells the others what it holds. */
static void share(unsigned s)
{
    for (unsigned other = 0; other < SERVERS; other++) {
        struct frame frame = {.length = 0};

        if (other == s)
            continue;
        int64_t end = tovridsa_share(servers[s].record, frame.bytes, sizeof frame.bytes, HEAD);
        expect(end > HEAD, "server %u does not share: %" PRId64, s, end);
        send_frame(&frame, other, s, (uint64_t)end, &servers[s].record.replica.ledger);
    }
}

/* What a server weighs by the sheet of another one, which that one's share tells. */
static int64_t weight_by(unsigned teller, unsigned server)
{
    uint8_t out[TOVRIDSA_LONGEST];
    int64_t end = tovridsa_share(servers[teller].record, out, sizeof out, 0);

    expect(end > 0, "server %u does not share: %" PRId64, teller, end);
    return tovridsa_weight(SERVERS, CRASHES, starts, SERVERS, server, out, (size_t)end);
}

/* One server gives weight to another, if it can spare it; nobody gives to one that does not answer any more. */
static void give_weight(void)
{
    unsigned giver = random_below(SERVERS);
    unsigned taker = (giver + 1 + random_below(SERVERS - 1)) % SERVERS;
    unsigned amount = 1 + random_below(GIFT);

    if (servers[giver].crashed || servers[taker].crashed)
        return;
    tovridsa_server_answer given = tovridsa_transfer(servers[giver].record, taker, amount);
    if (tovridsa_refusal(given.answer) == TOVRIDSA_THIN) {
        gifts_refused++;
        return;
    }
    expect(given.answer == 0, "server %u answers %" PRId64 " to a transfer", giver, given.answer);
    servers[giver].record = given.server;
    gifts++;
    printf("  %5" PRIu64 "  server %u gives %u to server %u, and tells the others\n", clock_steps, giver, amount, taker);
    share(giver);
}

/* The heaviest server crashes: the four that are left still have more than half of the weight. */
static void crash_heaviest(void)
{
    unsigned heaviest = 0;

    for (unsigned s = 1; s < SERVERS; s++)
        if (weight_by(s, s) > weight_by(heaviest, heaviest))
            heaviest = s;
    servers[heaviest].crashed = true;
    printf("  %5" PRIu64 "  server %u crashes, which weighs %" PRId64 " by its own sheet\n", clock_steps, heaviest, weight_by(heaviest, heaviest));
}

/* ---- what the proofs promise of operations */

struct tag {
    uint32_t stamp;
    uint16_t desk;
};

/* A tag in a format, and its arguments. */
#define TAG "(%" PRIu32 ", %u)"
#define TAG_ARGUMENTS(tag) (tag).stamp, (unsigned)(tag).desk

/* Every write that has a tag, whether it has ended or not. */
static struct write {
    struct tag tag;
    uint8_t map[BLOCK];
} writes[1 + MOST_ERRANDS];
static unsigned write_count;

/* The highest tag of an operation that has ended. */
static struct tag highest_ended;

static struct tag tag_of(const tovridsa_register *reg)
{
    return (struct tag){reg->stamp, reg->desk};
}

static bool tag_below(struct tag a, struct tag b)
{
    return a.stamp < b.stamp || (a.stamp == b.stamp && a.desk < b.desk);
}

static bool tag_same(struct tag a, struct tag b)
{
    return a.stamp == b.stamp && a.desk == b.desk;
}

static const struct write *write_with(struct tag tag)
{
    for (unsigned w = write_count; w > 0; w--)
        if (tag_same(writes[w - 1].tag, tag))
            return &writes[w - 1];
    return NULL;
}

/* An operation has its tag. `least` is the highest tag of those that had ended when it began. */
static void check_order(struct tag tag, struct tag least, bool is_write)
{
    expect(!tag_below(tag, least), "the tag " TAG " is below " TAG ", which was there before", TAG_ARGUMENTS(tag), TAG_ARGUMENTS(least));
    expect(!is_write || tag_below(least, tag), "a write has the tag " TAG ", which was there before", TAG_ARGUMENTS(tag));
}

static void keep_write(struct tag tag, const uint8_t *map)
{
    expect(write_with(tag) == NULL, "two writes have the tag " TAG, TAG_ARGUMENTS(tag));
    writes[write_count].tag = tag;
    memcpy(writes[write_count].map, map, BLOCK);
    write_count++;
}

/* A result's value is that of the write with its tag, or empty at the start. */
static void check_value(const tovridsa_register *found)
{
    struct tag tag = tag_of(found);
    const struct write *write = write_with(tag);

    if (tag_same(tag, (struct tag){0, 0})) {
        expect(found->value.length == 0, "the start is not empty");
        return;
    }
    expect(write != NULL, "nobody wrote under the tag " TAG, TAG_ARGUMENTS(tag));
    expect(found->value.length == BLOCK && memcmp(found->value.bytes, write->map, BLOCK) == 0, "another map was written under the tag " TAG,
           TAG_ARGUMENTS(tag));
}

/* ---- seats */

/* The seats for which somebody has a ticket. A ticket is handed out once the sale is in the store, and taken before the seat goes back. */
static bool tickets[SEATS];

static uint8_t seat_bit(unsigned seat)
{
    return (uint8_t)(0x80u >> seat % 8);
}

static bool is_sold(const uint8_t *map, unsigned seat)
{
    return (map[seat / 8] & seat_bit(seat)) != 0;
}

static void turn_seat(uint8_t *map, unsigned seat)
{
    map[seat / 8] ^= seat_bit(seat);
}

static void show_seats(const uint8_t *map)
{
    for (unsigned seat = 0; seat < SEATS; seat++) {
        if (seat % ROW == 0)
            printf("    ");
        printf("%c%s", is_sold(map, seat) ? '#' : '.', seat % ROW == ROW - 1 ? "\n" : "");
    }
}

/* ---- desks */

/* What a desk is about: it looks; it looks in order to sell; it writes the map that it has changed; it puts the block on sale. */
enum errand { NOTHING, LOOK, FIND, CHANGE, OFFER };

/* One desk more than sell, which opens at the end. */
static struct desk {
    tovridsa_desk record;
    bool lends; /* whether it hears on its own record, lent, or on a copy that comes back */
    enum errand errand;
    uint64_t asked; /* the step at which it asked last */
    /* What it changes: the map, and in it a party's seats. */
    uint8_t map[BLOCK];
    unsigned first, party;
    bool takes_back;
    /* What the checks see of its operation. */
    struct tag least, tag;
    bool tagged;
    uint32_t restarts, gain;
    uint16_t brought[SERVERS]; /* the most transfers of each server that a reply, in whatever operation, told of */
} desks[DESKS + 1];

/* The one desk that sells or takes back, if any. */
static struct desk *seller;

static unsigned errands, begun, ended_reads, ended_writes, given_up;

static unsigned desk_number(const struct desk *desk)
{
    return (unsigned)desk->record.number;
}

static bool is_writing(const struct desk *desk)
{
    return desk->errand == CHANGE || desk->errand == OFFER;
}

static void open_desk(struct desk *desk, unsigned number)
{
    tovridsa_desk_answer opened = tovridsa_open_desk(SERVERS, CRASHES, number, starts, SERVERS);

    expect(opened.answer == 0, "desk %u is not opened", number);
    desk->record = opened.desk;
    desk->lends = number % 2 == 0;
}

/* What the proofs say of a desk whose operation runs, beside a request of it: both go by the sheet that it knows. */
static void check_margin(const struct desk *desk, const uint8_t *request, size_t len)
{
    int64_t margin = tovridsa_margin(desk->record);

    expect(margin >= -TOTAL && margin <= 0, "desk %u has the margin %" PRId64 " while its operation runs", desk_number(desk), margin);
    expect(margin == tovridsa_quorum(SERVERS, CRASHES, starts, SERVERS, desk->record.operation.answered, request, len),
           "desk %u has another margin than its request", desk_number(desk));
}

/* Asks each server that has not answered in this round. */
static void ask(struct desk *desk)
{
    for (unsigned s = 0; s < SERVERS; s++) {
        struct frame frame = {.length = 0};

        if ((desk->record.operation.answered >> s & 1) != 0)
            continue;
        int64_t end = tovridsa_ask(desk->record, s, frame.bytes, sizeof frame.bytes, HEAD);
        expect(end > HEAD, "desk %u cannot ask server %u: %" PRId64, desk_number(desk), s, end);
        check_margin(desk, frame.bytes + HEAD, (size_t)end - HEAD);
        send_frame(&frame, s, FIRST_DESK + desk_number(desk), (uint64_t)end, &desk->record.replica.ledger);
    }
    desk->asked = clock_steps;
}

static void begin(struct desk *desk, enum errand errand)
{
    uint32_t note = ++begun;
    tovridsa_desk_answer answer;

    desk->errand = errand;
    if (is_writing(desk))
        answer = tovridsa_begin_write(desk->record, note, desk->map, BLOCK);
    else
        answer = tovridsa_begin_read(desk->record, note);
    expect(answer.answer == 0, "desk %u cannot begin: %" PRId64, desk_number(desk), answer.answer);
    desk->record = answer.desk;
    desk->least = highest_ended;
    desk->tagged = false;
    desk->restarts = 0;
    desk->gain = 0;
    ask(desk);
}

static void rest(struct desk *desk)
{
    desk->errand = NOTHING;
    if (seller == desk)
        seller = NULL;
}

/* Looks for a party's seats that are all sold or all on offer, from any seat on. */
static bool find_party(struct desk *desk)
{
    unsigned start = random_below(SEATS);

    for (unsigned k = 0; k < SEATS; k++) {
        unsigned first = (start + k) % SEATS;
        unsigned fit = 0;

        while (fit < desk->party && first + fit < SEATS && (desk->takes_back ? tickets[first + fit] : !is_sold(desk->map, first + fit)))
            fit++;
        if (fit == desk->party) {
            desk->first = first;
            return true;
        }
    }
    return false;
}

/* The seller has found the map, and changes it. */
static void change(struct desk *desk, const uint8_t *map)
{
    for (unsigned seat = 0; seat < SEATS; seat++)
        expect(!tickets[seat] || is_sold(map, seat), "seat %u is on offer, and somebody has a ticket for it", seat + 1);
    memcpy(desk->map, map, BLOCK);
    desk->party = 1 + random_below(PARTY);
    desk->takes_back = one_in(TAKING_BACK);
    if (!find_party(desk)) {
        rest(desk);
        return;
    }
    for (unsigned seat = desk->first; seat < desk->first + desk->party; seat++) {
        turn_seat(desk->map, seat);
        if (desk->takes_back)
            tickets[seat] = false;
    }
    begin(desk, CHANGE);
}

static void tell_change(const struct desk *desk)
{
    unsigned last = desk->first + desk->party;

    printf("  %5" PRIu64 "  desk %u %s seat%s %u", clock_steps, desk_number(desk), desk->takes_back ? "takes back" : "sells",
           desk->party == 1 ? "" : "s", desk->first + 1);
    if (desk->party > 1)
        printf(" to %u", last);
    printf(": tag " TAG ", restarts %" PRIu32 ", on offer %" PRId64 "\n", TAG_ARGUMENTS(desk->tag), desk->restarts,
           tovridsa_seats(desk->map, BLOCK));
}

/* The changed map is in the store. */
static void settle(struct desk *desk)
{
    for (unsigned seat = desk->first; seat < desk->first + desk->party && !desk->takes_back; seat++) {
        expect(!tickets[seat], "seat %u is sold twice", seat + 1);
        tickets[seat] = true;
    }
    tell_change(desk);
    rest(desk);
}

/* The operation of a desk has ended. */
static void end_operation(struct desk *desk)
{
    tovridsa_result_answer result = tovridsa_result(desk->record);
    struct tag tag = tag_of(&result.reg);

    expect(result.answer == 0, "desk %u has no result: %" PRId64, desk_number(desk), result.answer);
    expect(result.kind == (is_writing(desk) ? TOVRIDSA_WRITE : TOVRIDSA_READ), "desk %u tells of another kind of operation", desk_number(desk));
    expect(desk->tagged && tag_same(tag, desk->tag), "desk %u tells another tag than it chose", desk_number(desk));
    expect(result.restarts == desk->restarts, "desk %u reports %" PRIu32 " restarts, and made %" PRIu32, desk_number(desk), result.restarts,
           desk->restarts);
    expect(result.restarts <= desk->gain, "desk %u reports more restarts than it learned of transfers", desk_number(desk));
    check_value(&result.reg);
    if (tag_below(highest_ended, tag))
        highest_ended = tag;
    counted.restarts += result.restarts;
    if (is_writing(desk))
        ended_writes++;
    else
        ended_reads++;
    if (desk->errand == FIND)
        change(desk, result.reg.value.bytes);
    else if (desk->errand == CHANGE)
        settle(desk);
    else
        rest(desk);
}

/* Both forms of hear: the record lent and found changed, or given by value and handed back. */
static int64_t hear(struct desk *desk, const uint8_t *msg, size_t len)
{
    if (desk->lends)
        return tovridsa_hear_lent(&desk->record, msg, len);
    tovridsa_desk_answer heard = tovridsa_hear(desk->record, msg, len);
    desk->record = heard.desk;
    return heard.answer;
}

/* A reply was taken: it is a restart where it told of transfers that no earlier one had told of. */
static void count_news(struct desk *desk, const struct frame *frame)
{
    uint32_t news = 0;

    for (unsigned s = 0; s < SERVERS; s++) {
        if (frame->known[s] > desk->brought[s]) {
            news += (uint32_t)(frame->known[s] - desk->brought[s]);
            desk->brought[s] = frame->known[s];
        }
    }
    desk->gain += news;
    if (news > 0)
        desk->restarts++;
}

/* A desk takes what arrives for it. */
static void desk_takes(struct desk *desk, const struct frame *frame)
{
    uint32_t round = desk->record.round;
    int64_t answer = hear(desk, frame->bytes + HEAD, frame->length - HEAD);

    if (frame->cut) {
        expect(tovridsa_refusal(answer) == TOVRIDSA_TORN, "desk %u answers %" PRId64 " to a message cut short", desk_number(desk), answer);
        counted.torn++;
        return;
    }
    if (answer == TOVRIDSA_LATE) {
        counted.late++;
        return;
    }
    expect(answer == 0, "desk %u answers %" PRId64 " to a reply", desk_number(desk), answer);
    counted.heard++;
    count_news(desk, frame);
    if (!desk->tagged && desk->record.operation.phase == PHASE_TWO) {
        desk->tagged = true;
        desk->tag = tag_of(&desk->record.operation.chosen);
        check_order(desk->tag, desk->least, is_writing(desk));
        if (is_writing(desk))
            keep_write(desk->tag, desk->map);
    }
    if (desk->record.operation.mode == TOVRIDSA_ENDED)
        end_operation(desk);
    else if (desk->record.round != round)
        ask(desk);
}

/* A clerk sees how much weight is still missing, and loses patience with a read. A write is not dropped here: its messages might still arrive after the
 * next sale, and its map, made without that sale, might have the higher tag. */
static void give_up(struct desk *desk)
{
    int64_t missing = -tovridsa_margin(desk->record) / 2 + 1;
    tovridsa_desk_answer dropped = tovridsa_drop(desk->record);

    expect(dropped.answer == 0, "desk %u cannot drop its operation: %" PRId64, desk_number(desk), dropped.answer);
    desk->record = dropped.desk;
    given_up++;
    printf("  %5" PRIu64 "  desk %u gives up looking%s, with %" PRId64 " of the weight missing\n", clock_steps, desk_number(desk),
           desk->errand == FIND ? " for seats to sell" : "", missing);
    rest(desk);
}

/* A desk sells where no other one does, and else looks. */
static void set_out(struct desk *desk)
{
    errands++;
    if (seller == NULL) {
        seller = desk;
        begin(desk, FIND);
    } else {
        begin(desk, LOOK);
    }
}

/* ---- the run */

/* Any one of the messages in flight arrives. */
static void deliver(void)
{
    unsigned which = random_below(flying_count);
    struct frame frame = flying[which];

    flying[which] = flying[--flying_count];
    if (frame.bytes[TO] < FIRST_DESK)
        server_takes(frame.bytes[TO], &frame);
    else
        desk_takes(&desks[frame.bytes[TO] - FIRST_DESK - 1], &frame);
}

static bool anyone_busy(void)
{
    for (unsigned d = 0; d <= DESKS; d++)
        if (desks[d].errand != NOTHING)
            return true;
    return false;
}

static void step(void)
{
    if (flying_count > 0)
        deliver();
    for (unsigned d = 0; d <= DESKS; d++)
        if (desks[d].errand != NOTHING && clock_steps - desks[d].asked >= PATIENCE)
            ask(&desks[d]);
    clock_steps++;
    expect(clock_steps < MOST_STEPS, "the run does not come to its end, which the store does not promise, but this network should bring about");
}

/* What happens in the busy hours besides. */
static void bustle(void)
{
    struct desk *desk = &desks[random_below(DESKS)];

    if (desk->errand == NOTHING && one_in(SETTING_OUT))
        set_out(desk);
    if (desk->errand != NOTHING && !is_writing(desk) && one_in(GIVING_UP))
        give_up(desk);
    if (one_in(GIVING_WEIGHT))
        give_weight();
}

/* Desk 1 writes the block with every seat on offer, and the others look meanwhile: they find it, or the empty start. */
static void put_on_sale(void)
{
    seller = &desks[0];
    memset(desks[0].map, 0, BLOCK);
    begin(&desks[0], OFFER);
    for (unsigned d = 1; d < DESKS; d++)
        begin(&desks[d], LOOK);
    while (anyone_busy())
        step();
}

/* A desk looks while no other one does anything. It finds the last map written, and shows it. */
static void look_and_show(struct desk *desk, const char *what)
{
    begin(desk, LOOK);
    while (anyone_busy())
        step();
    tovridsa_result_answer result = tovridsa_result(desk->record);
    expect(tag_same(tag_of(&result.reg), writes[write_count - 1].tag), "nobody writes, and desk %u does not find the last map", desk_number(desk));
    printf("\n%s: tag " TAG ", restarts %" PRIu32 ", on offer %" PRId64 "\n", what, TAG_ARGUMENTS(result.reg), result.restarts,
           tovridsa_seats(result.reg.value.bytes, result.reg.value.length));
    show_seats(result.reg.value.bytes);
}

static void busy_hours(unsigned wanted)
{
    bool crashed = false;

    printf("\nThe busy hours, by steps:\n");
    while (errands < wanted) {
        step();
        bustle();
        if (!crashed && errands >= wanted / 2) {
            crash_heaviest();
            crashed = true;
        }
    }
    while (anyone_busy() || flying_count > 0)
        step();
}

static void show_weights(void)
{
    printf("\nWhat the servers know at the end:\n");
    for (unsigned s = 0; s < SERVERS; s++) {
        unsigned transfers = 0;

        if (servers[s].crashed)
            continue;
        for (unsigned giver = 0; giver < SERVERS; giver++)
            transfers += servers[s].record.replica.ledger.counts[giver];
        printf("    server %u: %u transfers, weights", s, transfers);
        for (unsigned other = 0; other < SERVERS; other++)
            printf(" %" PRId64, weight_by(s, other));
        printf("\n");
    }
}

static void show_counts(void)
{
    printf("\nIn all:\n");
    printf("    %u operations: %u reads and %u writes ended, %u given up\n", begun, ended_reads, ended_writes, given_up);
    printf("    %u messages sent: %u lost, %u doubled, %u cut short\n", counted.sent, counted.lost, counted.doubled, counted.cut);
    printf("    servers took %u requests and %u shares; %u messages came to a crashed one\n", counted.requests, counted.shares, counted.unserved);
    printf("    desks took %u replies, and %u came too late; operations started over %u times\n", counted.heard, counted.late, counted.restarts);
    printf("    %u messages refused as torn; %u transfers made, %u refused as too thin\n", counted.torn, gifts, gifts_refused);
}

/* The number that an argument names, up to a bound. */
static uint64_t number_of(const char *argument, uint64_t most)
{
    char *end;
    unsigned long long number = strtoull(argument, &end, 10);

    if (*argument < '0' || *argument > '9' || *end != '\0' || number > most) {
        fprintf(stderr, "usage: cluster [seed [errands]], with up to %d errands\n", MOST_ERRANDS);
        exit(2);
    }
    return number;
}

int main(int argc, char **argv)
{
    unsigned wanted = ERRANDS;

    if (argc > 1)
        seed = number_of(argv[1], UINT64_MAX);
    if (argc > 2)
        wanted = (unsigned)number_of(argv[2], MOST_ERRANDS);
    chance = seed;

    printf("%d servers, of which %d may crash: server 0 weighs %d at the start, each other %d. %d desks: those with an odd number hear by value, the\n"
           "others on their record, lent.\n",
           SERVERS, CRASHES, STRONG, WEAK, DESKS);
    printf("The network loses one message in %d, doubles one in %d, cuts one in %d short, and keeps no order. Seed %" PRIu64 ", %u errands.\n", LOST,
           DOUBLED, CUT, seed, wanted);
    open_servers();
    for (unsigned d = 0; d < DESKS; d++)
        open_desk(&desks[d], d + 1);
    put_on_sale();
    look_and_show(&desks[1], "Before, desk 2 looks");
    busy_hours(wanted);
    /* A desk that has heard of no transfer finds the last map all the same. */
    open_desk(&desks[DESKS], DESKS + 1);
    look_and_show(&desks[DESKS], "After, desk 5 opens and looks");
    show_weights();
    show_counts();
    printf("\nAll messages, answers, tags, values, restarts, margins and tickets are as promised.\n");
    return 0;
}
