/* A library as a C host uses it whose records go into a call by value: what comes back takes a record's place. It is compiled twice, over the proved
 * library, and with BY_VALUE over the plain C behind the same signatures (value.c). */
#ifdef BY_VALUE
#include "value.h"
#define HOST(call) value_##call
#else
#define HOST(call) core_##call
#endif

#include "store.h"

int64_t HOST(open_server)(tovridsa_server *server, uint64_t n, uint64_t f, uint64_t number, const uint64_t *starts, size_t starts_len)
{
    tovridsa_server_answer opened = tovridsa_open_server(n, f, number, starts, starts_len);

    *server = opened.server;
    return opened.answer;
}

int64_t HOST(transfer)(tovridsa_server *server, uint64_t taker, uint64_t amount)
{
    tovridsa_server_answer given = tovridsa_transfer(*server, taker, amount);

    *server = given.server;
    return given.answer;
}

int64_t HOST(share)(const tovridsa_server *server, uint8_t *out, size_t len, size_t at)
{
    return tovridsa_share(*server, out, len, at);
}

int64_t HOST(serve)(tovridsa_server *server, const uint8_t *msg, size_t msg_len, uint8_t *out, size_t out_len, size_t at, uint64_t *end)
{
    tovridsa_serve_answer served = tovridsa_serve(*server, msg, msg_len, out, out_len, at);

    *server = served.server;
    *end = served.end;
    return served.answer;
}

int64_t HOST(open_desk)(tovridsa_desk *desk, uint64_t n, uint64_t f, uint64_t number, const uint64_t *starts, size_t starts_len)
{
    tovridsa_desk_answer opened = tovridsa_open_desk(n, f, number, starts, starts_len);

    *desk = opened.desk;
    return opened.answer;
}

int64_t HOST(begin_read)(tovridsa_desk *desk, uint32_t note)
{
    tovridsa_desk_answer begun = tovridsa_begin_read(*desk, note);

    *desk = begun.desk;
    return begun.answer;
}

int64_t HOST(begin_write)(tovridsa_desk *desk, uint32_t note, const uint8_t *value, size_t len)
{
    tovridsa_desk_answer begun = tovridsa_begin_write(*desk, note, value, len);

    *desk = begun.desk;
    return begun.answer;
}

int64_t HOST(ask)(const tovridsa_desk *desk, uint64_t server, uint8_t *out, size_t len, size_t at)
{
    return tovridsa_ask(*desk, server, out, len, at);
}

int64_t HOST(hear)(tovridsa_desk *desk, const uint8_t *msg, size_t len)
{
    tovridsa_desk_answer heard = tovridsa_hear(*desk, msg, len);

    *desk = heard.desk;
    return heard.answer;
}

#ifndef BY_VALUE
int64_t core_hear_lent(tovridsa_desk *desk, const uint8_t *msg, size_t len)
{
    return tovridsa_hear_lent(desk, msg, len);
}
#endif

int64_t HOST(result)(const tovridsa_desk *desk, tovridsa_result_answer *told)
{
    *told = tovridsa_result(*desk);
    return told->answer;
}

int64_t HOST(margin)(const tovridsa_desk *desk)
{
    return tovridsa_margin(*desk);
}

int64_t HOST(drop)(tovridsa_desk *desk)
{
    tovridsa_desk_answer dropped = tovridsa_drop(*desk);

    *desk = dropped.desk;
    return dropped.answer;
}
