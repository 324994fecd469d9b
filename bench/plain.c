#include "plain.h"

#include "read.h"

/* The house and its start weights, then the message; its weights and W. */
static int open_message(uint64_t n, uint64_t f, const uint64_t *starts, size_t starts_len, const uint8_t *msg, size_t len, int64_t weights[SERVERS],
                        int64_t *total)
{
    struct message message;
    uint16_t own[SERVERS];
    int fault;

    if (!good_house(n, f))
        return BAD_HOUSE;
    fault = take_starts(n, f, starts, starts_len, own, total);
    if (fault != FINE)
        return fault;
    return examine(n, f, own, *total, msg, len, &message, weights);
}

int64_t plain_check(uint64_t n, uint64_t f, const uint64_t *starts, size_t starts_len, const uint8_t *msg, size_t len)
{
    int64_t weights[SERVERS], total;
    int fault = open_message(n, f, starts, starts_len, msg, len, weights, &total);

    return fault == FINE ? 0 : refusal(fault);
}

int64_t plain_weight(uint64_t n, uint64_t f, const uint64_t *starts, size_t starts_len, uint64_t server, const uint8_t *msg, size_t len)
{
    int64_t weights[SERVERS], total;
    int fault = open_message(n, f, starts, starts_len, msg, len, weights, &total);

    if (fault != FINE)
        return refusal(fault);
    if (server >= n)
        return refusal(BAD_HOUSE);
    return weights[server];
}

int64_t plain_quorum(uint64_t n, uint64_t f, const uint64_t *starts, size_t starts_len, uint64_t map, const uint8_t *msg, size_t len)
{
    int64_t weights[SERVERS], total;
    int fault = open_message(n, f, starts, starts_len, msg, len, weights, &total);

    if (fault != FINE)
        return refusal(fault);
    if (map >> n != 0)
        return refusal(BAD_HOUSE);
    return margin(n, total, weights, map);
}

/* How many ones a word has: neighbours are added up in pairs, fours and bytes, and the product adds the eight bytes up. */
static unsigned ones(uint64_t word)
{
    word -= word >> 1 & 0x5555555555555555u;
    word = (word & 0x3333333333333333u) + (word >> 2 & 0x3333333333333333u);
    word = (word + (word >> 4)) & 0x0f0f0f0f0f0f0f0fu;
    return (unsigned)(word * 0x0101010101010101u >> 56);
}

/* A set bit is a seat that is sold. */
int64_t plain_seats(const uint8_t *block, size_t len)
{
    unsigned sold = 0;
    size_t at = 0;

    if (len > BLOCK_LIMIT)
        return refusal(LONG);
    for (; len - at >= 8; at += 8) {
        uint64_t word;

        memcpy(&word, block + at, sizeof word);
        sold += ones(word);
    }
    for (; at < len; at++)
        sold += ones(block[at]);
    return (int64_t)(8 * len) - sold;
}
