/*
 * The least host: five servers and one desk in one process, which writes a block of seats and reads it again. There is no network, no disk and no clock:
 * docs/HOST.md says what a host must see to besides.
 */
#include "tovridsa.h"

#include <inttypes.h>
#include <stdio.h>
#include <stdlib.h>

/* Five servers, of which one may crash. They start level; all parties are opened with the same list. */
enum { SERVERS = 5, CRASHES = 1, DESK = 7 };

static const uint64_t starts[SERVERS] = {1000, 1000, 1000, 1000, 1000};

static tovridsa_server servers[SERVERS];

/* Asks a server, lets it serve, and hears its reply. Hands back 0, TOVRIDSA_LATE or a refusal. */
static int64_t exchange(tovridsa_desk *desk, tovridsa_server *server)
{
    uint8_t request[TOVRIDSA_LONGEST], reply[TOVRIDSA_LONGEST];

    /* At the desk. A refused ask is no length. */
    int64_t end = tovridsa_ask(*desk, server->number, request, sizeof request, 0);
    if (tovridsa_refusal(end) != 0)
        return end;

    /* request[0] to request[end - 1] go to the server. There: */
    tovridsa_serve_answer served = tovridsa_serve(*server, request, (size_t)end, reply, sizeof reply, 0);
    if (tovridsa_refusal(served.answer) != 0)
        return served.answer;
    *server = served.server; /* kept for good, before the reply leaves */

    /* reply[0] to reply[served.end - 1] go back. At the desk, where the record is lent and found changed: */
    return tovridsa_hear_lent(desk, reply, (size_t)served.end);
}

/* Ends the program at a refusal. */
static void accepted(int64_t answer, const char *what)
{
    if (tovridsa_refusal(answer) == 0)
        return;
    fprintf(stderr, "%s: refused, %d\n", what, tovridsa_refusal(answer));
    exit(1);
}

/* Asks all servers, round after round, until the operation has ended, and tells its result. */
static tovridsa_result_answer finish(tovridsa_desk *desk)
{
    while (desk->operation.mode == TOVRIDSA_RUNNING)
        for (unsigned s = 0; s < SERVERS && desk->operation.mode == TOVRIDSA_RUNNING; s++)
            accepted(exchange(desk, &servers[s]), "exchange");

    tovridsa_result_answer result = tovridsa_result(*desk);
    accepted(result.answer, "result");
    return result;
}

static void tell(const char *what, const tovridsa_result_answer *result)
{
    printf("%s: tag (%" PRIu32 ", %u), restarts %" PRIu32 ", seats on offer %" PRId64 "\n", what, result->reg.stamp, (unsigned)result->reg.desk,
           result->restarts, tovridsa_seats(result->reg.value.bytes, result->reg.value.length));
}

int main(void)
{
    const uint8_t block[] = {0xA0, 0x07}; /* sixteen seats, five of them sold */

    for (unsigned s = 0; s < SERVERS; s++) {
        tovridsa_server_answer opened = tovridsa_open_server(SERVERS, CRASHES, s, starts, SERVERS);

        accepted(opened.answer, "open a server");
        servers[s] = opened.server;
    }
    tovridsa_desk_answer opened = tovridsa_open_desk(SERVERS, CRASHES, DESK, starts, SERVERS);
    accepted(opened.answer, "open a desk");
    tovridsa_desk desk = opened.desk;

    tovridsa_desk_answer begun = tovridsa_begin_write(desk, 0, block, sizeof block);
    accepted(begun.answer, "begin to write");
    desk = begun.desk;
    tovridsa_result_answer result = finish(&desk);
    tell("written", &result);

    /* A slow server gives weight to a quick one. Nobody is asked; the read below hears of it and starts its round again. */
    tovridsa_server_answer given = tovridsa_transfer(servers[0], 2, 200);
    accepted(given.answer, "transfer");
    servers[0] = given.server;

    begun = tovridsa_begin_read(desk, 0);
    accepted(begun.answer, "begin to read");
    desk = begun.desk;
    result = finish(&desk);
    tell("read", &result);
    return 0;
}
