/* The plain C by value, whose functions have other names than the library's (value.h): a record is copied into the answer, and changed there in place. */
#include "value.h"
#include "store.h"

tovridsa_server_answer tovridsa_open_server(uint64_t n, uint64_t f, uint64_t number, const uint64_t *starts, size_t starts_len)
{
    tovridsa_server_answer opened;

    opened.answer = plain_open_server(&opened.server, n, f, number, starts, starts_len);
    return opened;
}

tovridsa_server_answer tovridsa_transfer(tovridsa_server server, uint64_t taker, uint64_t amount)
{
    tovridsa_server_answer given;

    given.server = server;
    given.answer = plain_transfer(&given.server, taker, amount);
    return given;
}

int64_t tovridsa_share(tovridsa_server server, uint8_t *out, size_t len, size_t at)
{
    return plain_share(&server, out, len, at);
}

tovridsa_serve_answer tovridsa_serve(tovridsa_server server, const uint8_t *msg, size_t msg_len, uint8_t *out, size_t out_len, size_t at)
{
    tovridsa_serve_answer served;

    served.server = server;
    served.answer = plain_serve(&served.server, msg, msg_len, out, out_len, at, &served.end);
    return served;
}

tovridsa_desk_answer tovridsa_open_desk(uint64_t n, uint64_t f, uint64_t number, const uint64_t *starts, size_t starts_len)
{
    tovridsa_desk_answer opened;

    opened.answer = plain_open_desk(&opened.desk, n, f, number, starts, starts_len);
    return opened;
}

tovridsa_desk_answer tovridsa_begin_read(tovridsa_desk desk, uint32_t note)
{
    tovridsa_desk_answer begun;

    begun.desk = desk;
    begun.answer = plain_begin_read(&begun.desk, note);
    return begun;
}

tovridsa_desk_answer tovridsa_begin_write(tovridsa_desk desk, uint32_t note, const uint8_t *value, size_t len)
{
    tovridsa_desk_answer begun;

    begun.desk = desk;
    begun.answer = plain_begin_write(&begun.desk, note, value, len);
    return begun;
}

int64_t tovridsa_ask(tovridsa_desk desk, uint64_t server, uint8_t *out, size_t len, size_t at)
{
    return plain_ask(&desk, server, out, len, at);
}

tovridsa_desk_answer tovridsa_hear(tovridsa_desk desk, const uint8_t *msg, size_t len)
{
    tovridsa_desk_answer heard;

    heard.desk = desk;
    heard.answer = plain_hear(&heard.desk, msg, len);
    return heard;
}

tovridsa_result_answer tovridsa_result(tovridsa_desk desk)
{
    tovridsa_result_answer told;

    plain_result(&desk, &told);
    return told;
}

int64_t tovridsa_margin(tovridsa_desk desk)
{
    return plain_margin(&desk);
}

tovridsa_desk_answer tovridsa_drop(tovridsa_desk desk)
{
    tovridsa_desk_answer dropped;

    dropped.desk = desk;
    dropped.answer = plain_drop(&dropped.desk);
    return dropped;
}
