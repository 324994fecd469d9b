/* The message check, a weight, a quorum and the seats on offer in plain C, written by hand: what the proved library is timed against.
 *
 * Each call gives 0 for a message that passes, the weight, twice the weight of the map less that of all servers, which is above 0 for a quorum, or the
 * seats; a refusal with the number k is -1000000 - k.
 * `msg` and `block` point to `len` bytes that can be read, and `starts` to `starts_len` start weights; with a length of 0 the pointer is not looked at. */
#ifndef PLAIN_H
#define PLAIN_H

#include <stddef.h>
#include <stdint.h>

int64_t plain_check(uint64_t n, uint64_t f, const uint64_t *starts, size_t starts_len, const uint8_t *msg, size_t len);
int64_t plain_weight(uint64_t n, uint64_t f, const uint64_t *starts, size_t starts_len, uint64_t server, const uint8_t *msg, size_t len);
int64_t plain_quorum(uint64_t n, uint64_t f, const uint64_t *starts, size_t starts_len, uint64_t map, const uint8_t *msg, size_t len);
int64_t plain_seats(const uint8_t *block, size_t len);

#endif
