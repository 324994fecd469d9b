/* Whole servers and desks behind one row of calls, each on a record that it is lent and changes in place. The records are those of include/tovridsa.h.
 * store.c has them in plain C, written by hand: what the proved library is timed against. core.c has the proved library behind the same calls, as a C
 * host uses it, and the plain C by value, used in the same way (value.c).
 *
 * Answers are those that include/tovridsa.h gives for the call of the same name. A refusal leaves the record and the buffer as they were. `end` is
 * where serve leaves the place after the reply, and `told` where result leaves what it tells; they are set at every answer. */
#ifndef STORE_H
#define STORE_H

#include "../include/tovridsa.h"

/* The calls, each with the name of who makes it before its own. */
#define STORE(by) \
    int64_t by##_open_server(tovridsa_server *server, uint64_t n, uint64_t f, uint64_t number, const uint64_t *starts, size_t starts_len); \
    int64_t by##_transfer(tovridsa_server *server, uint64_t taker, uint64_t amount); \
    int64_t by##_share(const tovridsa_server *server, uint8_t *out, size_t len, size_t at); \
    int64_t by##_serve(tovridsa_server *server, const uint8_t *msg, size_t msg_len, uint8_t *out, size_t out_len, size_t at, uint64_t *end); \
    int64_t by##_open_desk(tovridsa_desk *desk, uint64_t n, uint64_t f, uint64_t number, const uint64_t *starts, size_t starts_len); \
    int64_t by##_begin_read(tovridsa_desk *desk, uint32_t note); \
    int64_t by##_begin_write(tovridsa_desk *desk, uint32_t note, const uint8_t *value, size_t len); \
    int64_t by##_ask(const tovridsa_desk *desk, uint64_t server, uint8_t *out, size_t len, size_t at); \
    int64_t by##_hear(tovridsa_desk *desk, const uint8_t *msg, size_t len); \
    int64_t by##_result(const tovridsa_desk *desk, tovridsa_result_answer *told); \
    int64_t by##_margin(const tovridsa_desk *desk); \
    int64_t by##_drop(tovridsa_desk *desk)

STORE(plain);
STORE(core);
STORE(value);

int64_t core_hear_lent(tovridsa_desk *desk, const uint8_t *msg, size_t len);

#endif
