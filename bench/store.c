/* Servers and desks in plain C. Every call tests the record that it is lent, as the proved library does, and finds the weights and their sum, W, while
 * it does so. A message is read once. Of its rows only those are copied that the party lacks, once nothing can refuse the message any more. */
#include "store.h"

#include "read.h"

/* What a desk does, and what its operation is. */
enum { NONE = 0, RUNNING = 1, ENDED = 2 };
enum { READ = 1, WRITE = 2 };

/* ---- record tests */

static bool register_fits(const tovridsa_register *reg)
{
    if (reg->stamp == 0)
        return reg->desk == 0 && reg->value.length == 0;
    return reg->desk != 0 && reg->value.length <= VALUE_LIMIT;
}

/* What a record's servers weigh, each and all together. */
struct weighed {
    int64_t weights[SERVERS];
    int64_t total;
};

/* Whether n and f are good, and so are the start weights, of which there are none from n on. */
static bool config_fits(const tovridsa_config *config, struct weighed *weighed)
{
    if (!good_house(config->n, config->f))
        return false;
    for (unsigned s = (unsigned)config->n; s < SERVERS; s++)
        if (config->starts[s] != 0)
            return false;
    weighed->total = total_of(config->n, config->f, config->starts);
    return weighed->total != 0;
}

/* Whether a party may hold a ledger: nothing stands in a row or column from n on or in a giver's own cell, each row's total fits its count, and every
 * weight is above the floor. */
static bool ledger_fits(const tovridsa_ledger *ledger, const tovridsa_config *config, struct weighed *weighed)
{
    uint64_t received[SERVERS] = {0};
    uint64_t given[SERVERS];

    for (unsigned giver = 0; giver < SERVERS; giver++) {
        const uint32_t *row = ledger->cells + giver * SERVERS;
        uint64_t count = ledger->counts[giver];
        uint64_t total = 0;

        for (unsigned taker = 0; taker < SERVERS; taker++) {
            received[taker] += row[taker];
            total += row[taker];
        }
        if (row[giver] != 0 || total < count || total > ROW_LIMIT * count)
            return false;
        given[giver] = total;
    }
    for (unsigned s = (unsigned)config->n; s < SERVERS; s++)
        if (received[s] != 0 || given[s] != 0)
            return false;
    for (unsigned s = 0; s < SERVERS; s++)
        weighed->weights[s] = (int64_t)(config->starts[s] + received[s]) - (int64_t)given[s];
    return above_floor(config->n, config->f, weighed->total, weighed->weights);
}

static bool replica_fits(const tovridsa_replica *replica, const tovridsa_config *config, struct weighed *weighed)
{
    return ledger_fits(&replica->ledger, config, weighed) && register_fits(&replica->reg);
}

static bool server_fits(const tovridsa_server *server, struct weighed *weighed)
{
    const tovridsa_config *config = &server->config;

    return config_fits(config, weighed) && server->number < config->n && replica_fits(&server->replica, config, weighed);
}

static bool operation_fits(const tovridsa_operation *op, uint64_t n, uint32_t round)
{
    if (round == 0 ? op->mode != NONE : op->mode > ENDED)
        return false;
    if (op->kind > WRITE || (op->mode != NONE && op->kind < READ))
        return false;
    if (op->phase > 2 || (op->mode == RUNNING && op->phase < 1))
        return false;
    return op->answered >> n == 0 && op->restarts <= round && op->value.length <= VALUE_LIMIT && register_fits(&op->chosen);
}

static bool desk_fits(const tovridsa_desk *desk, struct weighed *weighed)
{
    const tovridsa_config *config = &desk->config;

    return desk->number >= 1 && desk->number <= UINT16_MAX && config_fits(config, weighed) && replica_fits(&desk->replica, config, weighed) &&
           operation_fits(&desk->operation, config->n, desk->round);
}

/* ---- writing */

static uint8_t *put16(uint8_t *out, uint16_t x)
{
    out[0] = (uint8_t)(x >> 8);
    out[1] = (uint8_t)x;
    return out + 2;
}

static uint8_t *put32(uint8_t *out, uint32_t x)
{
    out[0] = (uint8_t)(x >> 24);
    out[1] = (uint8_t)(x >> 16);
    out[2] = (uint8_t)(x >> 8);
    out[3] = (uint8_t)x;
    return out + 4;
}

/* The fields of a message beside the replica that it carries; 0 where absent. */
struct envelope {
    uint8_t kind;
    uint8_t server;
    uint16_t desk;
    uint32_t round;
    uint32_t note;
};

/* The bytes of a row that stands. */
static size_t row_length(const uint32_t *row)
{
    size_t length = 4;

    for (unsigned taker = 0; taker < SERVERS; taker++)
        length += row[taker] != 0 ? 4 : 0;
    return length;
}

/* How long a message will be that carries a replica, with the rows that `newer` marks taken from `sheet`. */
static size_t message_length(const struct envelope *e, const tovridsa_replica *replica, unsigned newer, const struct sheet *sheet, bool stamped,
                             size_t value)
{
    size_t length = 4 + (e->desk != 0 ? 2 : 0) + (e->round != 0 ? 4 : 0) + (e->note != 0 ? 4 : 0) + (stamped ? 7 + value : 0);
    bool stands = false;

    for (unsigned giver = 0; giver < SERVERS; giver++) {
        bool taken = (newer >> giver & 1) != 0;

        if (taken || replica->ledger.counts[giver] != 0) {
            length += row_length(taken ? sheet->cells[giver] : replica->ledger.cells + giver * SERVERS);
            stands = true;
        }
    }
    return length + (stands ? 2 : 0);
}

/* Whether the buffer has room from a place on; how long the message is has to be found only where the longest one would not fit. */
static bool narrow(size_t len, size_t at, const struct envelope *e, const tovridsa_replica *replica, unsigned newer, const struct sheet *sheet,
                   bool stamped, size_t value)
{
    if (len < at)
        return true;
    return len - at < TOVRIDSA_LONGEST && len - at < message_length(e, replica, newer, sheet, stamped, value);
}

static uint8_t *put_row(uint8_t *out, uint16_t count, const uint32_t *row)
{
    uint8_t *map_at = out + 2;
    uint16_t map = 0;

    put16(out, count);
    out += 4;
    for (unsigned taker = 0; taker < SERVERS; taker++)
        if (row[taker] != 0) {
            map |= (uint16_t)(1 << taker);
            out = put32(out, row[taker]);
        }
    put16(map_at, map);
    return out;
}

/* Writes a message, for which there is room, and gives the place after it. */
static uint8_t *put_message(uint8_t *out, const struct envelope *e, const tovridsa_replica *replica)
{
    const tovridsa_ledger *ledger = &replica->ledger;
    const tovridsa_register *reg = &replica->reg;
    uint8_t *map_at = out;
    uint16_t map = HAS_KIND | HAS_SERVER;
    uint16_t rows = 0;

    out += 2;
    *out++ = e->kind;
    *out++ = e->server;
    if (e->desk != 0) {
        map |= HAS_DESK;
        out = put16(out, e->desk);
    }
    if (e->round != 0) {
        map |= HAS_ROUND;
        out = put32(out, e->round);
    }
    if (reg->stamp != 0) {
        map |= HAS_REGISTER;
        out = put32(out, reg->stamp);
        out = put16(out, reg->desk);
        *out++ = (uint8_t)reg->value.length;
        memcpy(out, reg->value.bytes, reg->value.length);
        out += reg->value.length;
    }
    for (unsigned giver = 0; giver < SERVERS; giver++)
        rows |= (uint16_t)((ledger->counts[giver] != 0) << giver);
    if (rows != 0) {
        map |= HAS_SHEET;
        out = put16(out, rows);
        for (unsigned rest = rows; rest != 0; rest &= rest - 1) {
            unsigned giver = (unsigned)__builtin_ctz(rest);

            out = put_row(out, ledger->counts[giver], ledger->cells + giver * SERVERS);
        }
    }
    if (e->note != 0) {
        map |= HAS_NOTE;
        out = put32(out, e->note);
    }
    put16(map_at, map);
    return out;
}

/* Writes a message that carries a replica into a buffer from a place on: the place after it, or NARROW. */
static int64_t send(const struct envelope *e, const tovridsa_replica *replica, uint8_t *out, size_t len, size_t at)
{
    if (narrow(len, at, e, replica, 0, NULL, replica->reg.stamp != 0, replica->reg.value.length))
        return refusal(NARROW);
    return put_message(out + at, e, replica) - out;
}

/* ---- joining */

/* How a message goes together with what a party holds: the rows of which it knows more, whether it knows less of some row, and whether its tag is
 * higher. */
struct join {
    unsigned newer;
    bool behind;
    bool higher;
};

static bool no_cell_smaller(const uint32_t *row, const uint32_t *than)
{
    bool smaller = false;

    for (unsigned taker = 0; taker < SERVERS; taker++)
        smaller |= row[taker] < than[taker];
    return !smaller;
}

/* Whether rows agree and equal tags have equal values. A row that the message has not is a row of which it knows no transfer. */
static bool compare(const tovridsa_replica *held, const struct message *m, struct join *join)
{
    const tovridsa_register *reg = &held->reg;

    join->newer = 0;
    join->behind = false;
    for (unsigned giver = 0; giver < SERVERS; giver++) {
        const uint32_t *own = held->ledger.cells + giver * SERVERS;
        const uint32_t *row = m->sheet.cells[giver];
        uint16_t count = held->ledger.counts[giver];

        if ((m->sheet.rows >> giver & 1) == 0) {
            join->behind |= count != 0;
        } else if (m->sheet.counts[giver] == count) {
            if (memcmp(row, own, SERVERS * sizeof *row) != 0)
                return false;
        } else if (m->sheet.counts[giver] > count) {
            if (!no_cell_smaller(row, own))
                return false;
            join->newer |= 1u << giver;
        } else {
            if (!no_cell_smaller(own, row))
                return false;
            join->behind = true;
        }
    }
    join->higher = m->stamp != reg->stamp ? m->stamp > reg->stamp : m->writer > reg->desk;
    if (m->stamp == reg->stamp && m->writer == reg->desk)
        return m->length == reg->value.length && memcmp(m->value, reg->value.bytes, m->length) == 0;
    return true;
}

/* Whether every weight is above the floor once the newer rows are taken; `weighed` has the weights of what is held. */
static bool joined_fits(const tovridsa_replica *held, const struct message *m, unsigned newer, const tovridsa_config *config, struct weighed *weighed)
{
    int64_t *weights = weighed->weights;

    if (newer == 0)
        return true;
    for (unsigned rest = newer; rest != 0; rest &= rest - 1) {
        unsigned giver = (unsigned)__builtin_ctz(rest);
        const uint32_t *own = held->ledger.cells + giver * SERVERS;
        const uint32_t *row = m->sheet.cells[giver];
        int64_t given = 0;

        for (unsigned taker = 0; taker < SERVERS; taker++) {
            weights[taker] += (int64_t)row[taker] - own[taker];
            given += (int64_t)row[taker] - own[taker];
        }
        weights[giver] -= given;
    }
    return above_floor(config->n, config->f, weighed->total, weights);
}

static void take_rows(tovridsa_ledger *ledger, const struct sheet *sheet, unsigned newer)
{
    for (unsigned rest = newer; rest != 0; rest &= rest - 1) {
        unsigned giver = (unsigned)__builtin_ctz(rest);

        ledger->counts[giver] = sheet->counts[giver];
        memcpy(ledger->cells + giver * SERVERS, sheet->cells[giver], sizeof sheet->cells[giver]);
    }
}

static void set_value(tovridsa_value *value, const uint8_t *bytes, size_t length)
{
    value->length = (uint16_t)length;
    if (length != 0)
        memcpy(value->bytes, bytes, length);
    memset(value->bytes + length, 0, sizeof value->bytes - length);
}

static void take_register(tovridsa_register *reg, const struct message *m)
{
    reg->stamp = m->stamp;
    reg->desk = m->writer;
    set_value(&reg->value, m->value, m->length);
}

/* ---- servers */

/* Fills a record's config, whose fields are 0. They are left so where the list is refused; n and f are good. */
static int open_config(tovridsa_config *config, uint64_t n, uint64_t f, const uint64_t *list, size_t len)
{
    uint16_t starts[SERVERS];
    int64_t total;
    int fault = take_starts(n, f, list, len, starts, &total);

    if (fault != FINE)
        return fault;
    config->n = n;
    config->f = f;
    memcpy(config->starts, starts, n * sizeof starts[0]);
    return FINE;
}

int64_t plain_open_server(tovridsa_server *server, uint64_t n, uint64_t f, uint64_t number, const uint64_t *starts, size_t starts_len)
{
    int fault;

    memset(server, 0, sizeof *server);
    if (!good_house(n, f) || number >= n)
        return refusal(BAD_HOUSE);
    fault = open_config(&server->config, n, f, starts, starts_len);
    if (fault != FINE)
        return refusal(fault);
    server->number = number;
    return 0;
}

int64_t plain_transfer(tovridsa_server *server, uint64_t taker, uint64_t amount)
{
    tovridsa_ledger *ledger = &server->replica.ledger;
    uint64_t n = server->config.n;
    uint64_t giver = server->number;
    struct weighed weighed;
    int64_t rest;

    if (!server_fits(server, &weighed))
        return refusal(BAD_HOUSE);
    if (taker == giver || taker >= n || amount == 0)
        return refusal(BAD_TRANSFER);
    if (ledger->counts[giver] == UINT16_MAX)
        return refusal(SPENT);
    /* A weight is above 0 and at most that of all servers. */
    if (amount >= (uint64_t)weighed.weights[giver])
        return refusal(THIN);
    rest = weighed.weights[giver] - (int64_t)amount;
    if (rest * 2 * (int64_t)(n - server->config.f) <= weighed.total)
        return refusal(THIN);
    ledger->counts[giver] += 1;
    ledger->cells[giver * SERVERS + taker] += (uint32_t)amount;
    return 0;
}

int64_t plain_share(const tovridsa_server *server, uint8_t *out, size_t len, size_t at)
{
    struct envelope e = {SHARE, (uint8_t)server->number, 0, 0, 0};
    struct weighed weighed;

    if (!server_fits(server, &weighed))
        return refusal(BAD_HOUSE);
    return send(&e, &server->replica, out, len, at);
}

int64_t plain_serve(tovridsa_server *server, const uint8_t *msg, size_t msg_len, uint8_t *out, size_t out_len, size_t at, uint64_t *end)
{
    const tovridsa_config *config = &server->config;
    tovridsa_replica *held = &server->replica;
    struct weighed weighed;
    int64_t told[SERVERS];
    struct message m;
    struct join join;
    struct envelope e;
    int fault;

    *end = at;
    if (!server_fits(server, &weighed))
        return refusal(BAD_HOUSE);
    fault = examine(config->n, config->f, config->starts, weighed.total, msg, msg_len, &m, told);
    if (fault != FINE)
        return refusal(fault);
    if (m.kind == REPLY || (m.kind == REQUEST && m.server != server->number))
        return refusal(STRAY);
    if (!compare(held, &m, &join) || (join.newer >> server->number & 1) != 0 || !joined_fits(held, &m, join.newer, config, &weighed))
        return refusal(CLASH);
    if (m.kind == REQUEST) {
        bool stamped = join.higher || held->reg.stamp != 0;

        e = (struct envelope){REPLY, (uint8_t)server->number, m.desk, m.round, m.note};
        if (narrow(out_len, at, &e, held, join.newer, &m.sheet, stamped, join.higher ? m.length : held->reg.value.length))
            return refusal(NARROW);
    }
    take_rows(&held->ledger, &m.sheet, join.newer);
    if (join.higher)
        take_register(&held->reg, &m);
    if (m.kind == REQUEST)
        *end = (uint64_t)(put_message(out + at, &e, held) - out);
    return 0;
}

/* ---- desks */

int64_t plain_open_desk(tovridsa_desk *desk, uint64_t n, uint64_t f, uint64_t number, const uint64_t *starts, size_t starts_len)
{
    int fault;

    memset(desk, 0, sizeof *desk);
    if (number < 1 || number > UINT16_MAX || !good_house(n, f))
        return refusal(BAD_HOUSE);
    fault = open_config(&desk->config, n, f, starts, starts_len);
    if (fault != FINE)
        return refusal(fault);
    desk->number = number;
    return 0;
}

static int64_t begin(tovridsa_desk *desk, uint16_t kind, uint32_t note, const uint8_t *value, size_t len)
{
    tovridsa_operation *op = &desk->operation;
    struct weighed weighed;

    if (!desk_fits(desk, &weighed))
        return refusal(BAD_HOUSE);
    if (len > VALUE_LIMIT)
        return refusal(LONG);
    if (op->mode == RUNNING)
        return refusal(BUSY);
    if (desk->round == UINT32_MAX)
        return refusal(SPENT);
    desk->round += 1;
    memset(op, 0, sizeof *op);
    op->mode = RUNNING;
    op->note = note;
    op->kind = kind;
    op->phase = 1;
    set_value(&op->value, value, len);
    return 0;
}

int64_t plain_begin_read(tovridsa_desk *desk, uint32_t note)
{
    return begin(desk, READ, note, NULL, 0);
}

int64_t plain_begin_write(tovridsa_desk *desk, uint32_t note, const uint8_t *value, size_t len)
{
    return begin(desk, WRITE, note, value, len);
}

int64_t plain_ask(const tovridsa_desk *desk, uint64_t server, uint8_t *out, size_t len, size_t at)
{
    struct envelope e = {REQUEST, (uint8_t)server, (uint16_t)desk->number, desk->round, desk->operation.note};
    struct weighed weighed;

    if (!desk_fits(desk, &weighed))
        return refusal(BAD_HOUSE);
    if (desk->operation.mode != RUNNING)
        return refusal(IDLE);
    if (server >= desk->config.n)
        return refusal(BAD_HOUSE);
    return send(&e, &desk->replica, out, len, at);
}

/* The reply knows more: the operation starts over. */
static int64_t restart(tovridsa_desk *desk, const struct message *m, const struct join *join)
{
    if (desk->round == UINT32_MAX)
        return refusal(SPENT);
    take_rows(&desk->replica.ledger, &m->sheet, join->newer);
    if (join->higher)
        take_register(&desk->replica.reg, m);
    desk->round += 1;
    desk->operation.answered = 0;
    desk->operation.restarts += 1;
    return 0;
}

/* Phase 1 ends: a write chooses the next stamp and its own value, a read what is held once the registers are joined. */
static int64_t choose(tovridsa_desk *desk, const struct message *m, const struct join *join)
{
    tovridsa_operation *op = &desk->operation;
    tovridsa_register *reg = &desk->replica.reg;
    uint32_t stamp = join->higher ? m->stamp : reg->stamp;

    if (desk->round == UINT32_MAX || (op->kind == WRITE && stamp == UINT32_MAX))
        return refusal(SPENT);
    if (op->kind == WRITE) {
        reg->stamp = stamp + 1;
        reg->desk = (uint16_t)desk->number;
        reg->value = op->value;
    } else if (join->higher) {
        take_register(reg, m);
    }
    desk->round += 1;
    op->phase = 2;
    op->answered = 0;
    op->chosen = *reg;
    return 0;
}

/* Phase 2 ends, and the operation with it: what its result does not tell is cleared. */
static void finish(tovridsa_operation *op)
{
    op->mode = ENDED;
    op->note = 0;
    op->phase = 0;
    op->answered = 0;
    memset(&op->value, 0, sizeof op->value);
}

int64_t plain_hear(tovridsa_desk *desk, const uint8_t *msg, size_t len)
{
    const tovridsa_config *config = &desk->config;
    tovridsa_operation *op = &desk->operation;
    tovridsa_replica *held = &desk->replica;
    struct weighed weighed;
    int64_t told[SERVERS];
    struct message m;
    struct join join;
    uint16_t answered;
    bool quorum;
    int fault;

    if (!desk_fits(desk, &weighed))
        return refusal(BAD_HOUSE);
    fault = examine(config->n, config->f, config->starts, weighed.total, msg, len, &m, told);
    if (fault != FINE)
        return refusal(fault);
    if (m.kind != REPLY || m.desk != desk->number)
        return refusal(STRAY);
    if (op->mode != RUNNING || m.round != desk->round)
        return TOVRIDSA_LATE;
    if (!compare(held, &m, &join) || join.behind || !joined_fits(held, &m, join.newer, config, &weighed))
        return refusal(CLASH);
    if (join.newer != 0)
        return restart(desk, &m, &join);

    answered = (uint16_t)(op->answered | 1 << m.server);
    quorum = margin(config->n, weighed.total, weighed.weights, answered) > 0;
    if (quorum && op->phase == 1)
        return choose(desk, &m, &join);
    if (join.higher)
        take_register(&held->reg, &m);
    op->answered = answered;
    if (quorum)
        finish(op);
    return 0;
}

int64_t plain_result(const tovridsa_desk *desk, tovridsa_result_answer *told)
{
    const tovridsa_operation *op = &desk->operation;
    struct weighed weighed;

    memset(told, 0, sizeof *told);
    if (!desk_fits(desk, &weighed))
        return told->answer = refusal(BAD_HOUSE);
    if (op->mode != ENDED)
        return told->answer = refusal(IDLE);
    told->restarts = op->restarts;
    told->kind = op->kind;
    told->reg.stamp = op->chosen.stamp;
    told->reg.desk = op->chosen.desk;
    set_value(&told->reg.value, op->chosen.value.bytes, op->chosen.value.length);
    return 0;
}

int64_t plain_margin(const tovridsa_desk *desk)
{
    const tovridsa_operation *op = &desk->operation;
    struct weighed weighed;

    if (!desk_fits(desk, &weighed))
        return refusal(BAD_HOUSE);
    if (op->mode != RUNNING)
        return refusal(IDLE);
    return margin(desk->config.n, weighed.total, weighed.weights, op->answered);
}

int64_t plain_drop(tovridsa_desk *desk)
{
    struct weighed weighed;

    if (!desk_fits(desk, &weighed))
        return refusal(BAD_HOUSE);
    if (desk->operation.mode != RUNNING)
        return refusal(IDLE);
    memset(&desk->operation, 0, sizeof desk->operation);
    return 0;
}
