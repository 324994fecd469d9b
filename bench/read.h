/* Reading messages in plain C: what plain.c and store.c share. Everything is small and static, so that each of the two is compiled as one piece. */
#ifndef READ_H
#define READ_H

#include <stdbool.h>
#include <stddef.h>
#include <stdint.h>
#include <string.h>

enum { SERVERS = 16, WEIGHT_LIMIT = 16000, ROW_LIMIT = 16000, VALUE_LIMIT = 64, BLOCK_LIMIT = 64 };

/* Numbers of the refusals; FINE is none. */
enum {
    FINE = 0,
    BAD_HOUSE = 1,
    TORN = 2,
    BAD_MAP = 3,
    ODD_FIELD = 4,
    LIGHT = 5,
    CLASH = 6,
    STRAY = 7,
    BUSY = 8,
    IDLE = 9,
    THIN = 10,
    BAD_TRANSFER = 11,
    SPENT = 12,
    NARROW = 13,
    LONG = 14,
    BAD_START = 15
};

enum { REQUEST = 1, REPLY = 2, SHARE = 3 };

/* The bits of a message's map. */
enum {
    HAS_KIND = 1 << 0,
    HAS_SERVER = 1 << 1,
    HAS_DESK = 1 << 2,
    HAS_ROUND = 1 << 3,
    HAS_REGISTER = 1 << 4,
    HAS_SHEET = 1 << 5,
    HAS_NOTE = 1 << 6,
    ALL_FIELDS = (1 << 7) - 1
};

/* What each giver gave. Only the rows that `rows` marks hold anything; a marked row is whole, zeros included. */
struct sheet {
    uint16_t rows;
    uint16_t counts[SERVERS];
    uint32_t cells[SERVERS][SERVERS];
};

/* The fields of a message. A number that is absent is 0; the value is a part of the message. */
struct message {
    uint8_t kind;
    uint8_t server;
    uint16_t desk;
    uint32_t round;
    uint32_t note;
    uint32_t stamp;
    uint16_t writer;
    uint8_t length;
    const uint8_t *value;
    struct sheet sheet;
};

/* The bytes not yet read. */
struct cursor {
    const uint8_t *at;
    size_t left;
};

static inline int64_t refusal(int number)
{
    return -1000000 - number;
}

static inline bool take8(struct cursor *c, uint8_t *out)
{
    if (c->left < 1)
        return false;
    *out = c->at[0];
    c->at += 1;
    c->left -= 1;
    return true;
}

static inline bool take16(struct cursor *c, uint16_t *out)
{
    if (c->left < 2)
        return false;
    *out = (uint16_t)(c->at[0] << 8 | c->at[1]);
    c->at += 2;
    c->left -= 2;
    return true;
}

static inline bool take32(struct cursor *c, uint32_t *out)
{
    if (c->left < 4)
        return false;
    *out = (uint32_t)c->at[0] << 24 | (uint32_t)c->at[1] << 16 | (uint32_t)c->at[2] << 8 | c->at[3];
    c->at += 4;
    c->left -= 4;
    return true;
}

static inline bool good_house(uint64_t n, uint64_t f)
{
    return n >= 1 && n <= SERVERS && f <= (n - 1) / 2;
}

/* What all servers weigh together, W, or 0 for start weights that may not be; n and f are good. Weights have 16 bits, so their sum cannot wrap. */
static inline int64_t total_of(uint64_t n, uint64_t f, const uint16_t starts[SERVERS])
{
    int64_t total = 0, least = UINT16_MAX;

    for (unsigned s = 0; s < n; s++) {
        total += starts[s];
        if (starts[s] < least)
            least = starts[s];
    }
    return total <= WEIGHT_LIMIT && least * 2 * (int64_t)(n - f) > total ? total : 0;
}

/* A list that a call is handed as the start weights of a house, and W; n and f are good. An entry above 16 bits is above the limit by itself. */
static inline int take_starts(uint64_t n, uint64_t f, const uint64_t *list, size_t len, uint16_t starts[SERVERS], int64_t *total)
{
    if (len != n)
        return BAD_START;
    for (unsigned s = 0; s < n; s++) {
        if (list[s] > WEIGHT_LIMIT)
            return BAD_START;
        starts[s] = (uint16_t)list[s];
    }
    *total = total_of(n, f, starts);
    return *total != 0 ? FINE : BAD_START;
}

/* Fields that a kind must have and those that it may have. */
static inline bool fields_fit(uint8_t kind, uint16_t map)
{
    if (kind == SHARE)
        return (map & (HAS_DESK | HAS_ROUND | HAS_NOTE)) == 0;
    return (map & (HAS_DESK | HAS_ROUND)) == (HAS_DESK | HAS_ROUND);
}

static inline int read_register(struct cursor *c, struct message *m)
{
    if (!take32(c, &m->stamp))
        return TORN;
    if (m->stamp == 0)
        return ODD_FIELD;
    if (!take16(c, &m->writer))
        return TORN;
    if (m->writer == 0)
        return ODD_FIELD;
    if (!take8(c, &m->length))
        return TORN;
    if (m->length > VALUE_LIMIT)
        return ODD_FIELD;
    if (c->left < m->length)
        return TORN;
    m->value = c->at;
    c->at += m->length;
    c->left -= m->length;
    return FINE;
}

static inline int read_row(struct cursor *c, unsigned n, unsigned giver, struct sheet *sheet)
{
    uint32_t *row = sheet->cells[giver];
    uint64_t total = 0;
    uint16_t count, takers;

    if (!take16(c, &count))
        return TORN;
    if (count == 0)
        return ODD_FIELD;
    if (!take16(c, &takers))
        return TORN;
    if (takers == 0 || takers >> n != 0 || (takers >> giver & 1) != 0)
        return ODD_FIELD;

    memset(row, 0, sizeof sheet->cells[giver]);
    for (unsigned rest = takers; rest != 0; rest &= rest - 1) {
        uint32_t given;

        if (!take32(c, &given))
            return TORN;
        if (given == 0)
            return ODD_FIELD;
        row[__builtin_ctz(rest)] = given;
        total += given;
    }
    if (total < count || total > (uint64_t)ROW_LIMIT * count)
        return ODD_FIELD;
    sheet->counts[giver] = count;
    return FINE;
}

static inline int read_sheet(struct cursor *c, unsigned n, struct sheet *sheet)
{
    uint16_t rows;

    if (!take16(c, &rows))
        return TORN;
    if (rows == 0 || rows >> n != 0)
        return ODD_FIELD;
    for (unsigned rest = rows; rest != 0; rest &= rest - 1) {
        int fault = read_row(c, n, (unsigned)__builtin_ctz(rest), sheet);

        if (fault != FINE)
            return fault;
    }
    sheet->rows = rows;
    return FINE;
}

/* Reads the whole message up to its last byte; the weights are not looked at. */
static inline int read_message(unsigned n, const uint8_t *msg, size_t len, struct message *m)
{
    struct cursor c = {msg, len};
    uint16_t map;
    int fault;

    m->desk = 0;
    m->round = 0;
    m->note = 0;
    m->stamp = 0;
    m->writer = 0;
    m->length = 0;
    m->value = msg;
    m->sheet.rows = 0;
    if (!take16(&c, &map))
        return TORN;
    if ((map & ~ALL_FIELDS) != 0 || (map & HAS_KIND) == 0 || (map & HAS_SERVER) == 0)
        return BAD_MAP;

    if (!take8(&c, &m->kind))
        return TORN;
    if (m->kind < REQUEST || m->kind > SHARE)
        return ODD_FIELD;
    if (!fields_fit(m->kind, map))
        return BAD_MAP;

    if (!take8(&c, &m->server))
        return TORN;
    if (m->server >= n)
        return ODD_FIELD;

    if ((map & HAS_DESK) != 0) {
        if (!take16(&c, &m->desk))
            return TORN;
        if (m->desk == 0)
            return ODD_FIELD;
    }
    if ((map & HAS_ROUND) != 0) {
        if (!take32(&c, &m->round))
            return TORN;
        if (m->round == 0)
            return ODD_FIELD;
    }
    if ((map & HAS_REGISTER) != 0) {
        fault = read_register(&c, m);
        if (fault != FINE)
            return fault;
    }
    if ((map & HAS_SHEET) != 0) {
        fault = read_sheet(&c, n, &m->sheet);
        if (fault != FINE)
            return fault;
    }
    if ((map & HAS_NOTE) != 0) {
        if (!take32(&c, &m->note))
            return TORN;
        if (m->note == 0)
            return ODD_FIELD;
    }
    return c.left == 0 ? FINE : TORN;
}

/* The weight of each of the n servers: what it started with, what it received, less what it gave. */
static inline void weigh(const struct sheet *sheet, unsigned n, const uint16_t starts[SERVERS], int64_t weights[SERVERS])
{
    for (unsigned s = 0; s < n; s++)
        weights[s] = starts[s];
    for (unsigned rest = sheet->rows; rest != 0; rest &= rest - 1) {
        unsigned giver = (unsigned)__builtin_ctz(rest);
        const uint32_t *row = sheet->cells[giver];
        int64_t given = 0;

        for (unsigned taker = 0; taker < n; taker++) {
            weights[taker] += row[taker];
            given += row[taker];
        }
        weights[giver] -= given;
    }
}

static inline bool above_floor(uint64_t n, uint64_t f, int64_t total, const int64_t weights[SERVERS])
{
    for (unsigned s = 0; s < n; s++)
        if (weights[s] * 2 * (int64_t)(n - f) <= total)
            return false;
    return true;
}

/* Twice the weight of the servers that a map names, less that of all servers: above 0 they are a quorum. */
static inline int64_t margin(uint64_t n, int64_t total, const int64_t weights[SERVERS], uint64_t map)
{
    int64_t weight = 0;

    for (unsigned s = 0; s < n; s++)
        if ((map >> s & 1) != 0)
            weight += weights[s];
    return 2 * weight - total;
}

/* The message, then its weights, which are left in `weights`; the house is good, and `total` is that of its start weights. */
static inline int examine(uint64_t n, uint64_t f, const uint16_t starts[SERVERS], int64_t total, const uint8_t *msg, size_t len, struct message *m,
                          int64_t weights[SERVERS])
{
    int fault = read_message((unsigned)n, msg, len, m);

    if (fault != FINE)
        return fault;
    weigh(&m->sheet, (unsigned)n, starts, weights);
    return above_floor(n, f, total, weights) ? FINE : LIGHT;
}

#endif
