/*
 * A C host looks at what came over the network: it checks messages, weighs servers, asks for quorums, and counts the seats of a block. Each answer
 * that is a refusal is shown by its number and word; a number below 0 need not be one.
 */
#include "tovridsa.h"

#include <inttypes.h>
#include <stdio.h>

/* A cluster of five servers, of which one may crash. They start level, or server 0 is a strong one; all together weigh 5,000 either way. */
enum { SERVERS = 5, CRASHES = 1 };

static const uint64_t level[SERVERS] = {1000, 1000, 1000, 1000, 1000};
static const uint64_t strong[SERVERS] = {2200, 700, 700, 700, 700};

/* Start weights that may not be: 625 is the floor of 5,000, and not above it. */
static const uint64_t at_floor[SERVERS] = {2500, 625, 625, 625, 625};

/* A share from server 0 after it gave 200 to server 2. */
static const uint8_t share[] = {0x00, 0x23, 0x03, 0x00, 0x00, 0x01, 0x00, 0x01, 0x00, 0x04, 0x00, 0x00, 0x00, 0xC8};

/* The same after it gave 375: one more than it can spare. */
static const uint8_t light[] = {0x00, 0x23, 0x03, 0x00, 0x00, 0x01, 0x00, 0x01, 0x00, 0x04, 0x00, 0x00, 0x01, 0x77};

/* A block of 16 seats, of which five are sold. */
static const uint8_t block[] = {0xA0, 0x07};

static const char *word(int refusal)
{
    switch (refusal) {
    case TOVRIDSA_BAD_HOUSE:
        return "bad house";
    case TOVRIDSA_TORN:
        return "torn";
    case TOVRIDSA_BAD_MAP:
        return "bad map";
    case TOVRIDSA_ODD_FIELD:
        return "odd field";
    case TOVRIDSA_LIGHT:
        return "light";
    case TOVRIDSA_LONG:
        return "long";
    case TOVRIDSA_BAD_START:
        return "bad start";
    default:
        return "?";
    }
}

static void show(const char *question, int64_t answer)
{
    int refusal = tovridsa_refusal(answer);

    printf("%-48s %" PRId64, question, answer);
    if (refusal != 0)
        printf("  refused: %d, %s", refusal, word(refusal));
    printf("\n");
}

/* A margin: whether it is a quorum's, and if not, how much weight is missing. */
static void show_margin(const char *servers, int64_t margin)
{
    printf("%-48s %" PRId64, servers, margin);
    if (margin > 0)
        printf("  a quorum\n");
    else
        printf("  no quorum: %" PRId64 " missing\n", -margin / 2 + 1);
}

/* The three questions about a message, in the level cluster. */

static int64_t check(const uint8_t *msg, size_t len)
{
    return tovridsa_check(SERVERS, CRASHES, level, SERVERS, msg, len);
}

static int64_t weight(uint64_t server, const uint8_t *msg, size_t len)
{
    return tovridsa_weight(SERVERS, CRASHES, level, SERVERS, server, msg, len);
}

static int64_t quorum(uint64_t map, const uint8_t *msg, size_t len)
{
    return tovridsa_quorum(SERVERS, CRASHES, level, SERVERS, map, msg, len);
}

/* The same messages in the cluster with a strong server. */
static void show_strong(void)
{
    char question[64];

    show("check the share, server 0 strong", tovridsa_check(SERVERS, CRASHES, strong, SERVERS, share, sizeof share));
    for (uint64_t server = 0; server < SERVERS; server++) {
        snprintf(question, sizeof question, "weight of server %" PRIu64, server);
        show(question, tovridsa_weight(SERVERS, CRASHES, strong, SERVERS, server, share, sizeof share));
    }
    show_margin("servers 0 and 3", tovridsa_quorum(SERVERS, CRASHES, strong, SERVERS, 0x09, share, sizeof share));
    show_margin("servers 1, 2 and 3", tovridsa_quorum(SERVERS, CRASHES, strong, SERVERS, 0x0E, share, sizeof share));
    show("check the share that gave 375", tovridsa_check(SERVERS, CRASHES, strong, SERVERS, light, sizeof light));
}

int main(void)
{
    uint8_t none[65] = {0};
    char question[64];

    show("check the share", check(share, sizeof share));
    for (uint64_t server = 0; server < SERVERS; server++) {
        snprintf(question, sizeof question, "weight of server %" PRIu64, server);
        show(question, weight(server, share, sizeof share));
    }
    show_margin("servers 2, 3 and 4", quorum(0x1C, share, sizeof share));
    show_margin("servers 0, 1 and 3", quorum(0x0B, share, sizeof share));
    show_margin("servers 2 and 4", quorum(0x14, share, sizeof share));
    show("seats on offer", tovridsa_seats(block, sizeof block));
    show("seats of the empty block", tovridsa_seats(NULL, 0));

    printf("\n");
    show_strong();

    printf("\n");
    show("check it without its last byte", check(share, sizeof share - 1));
    show("check an empty message", check(NULL, 0));
    show("check zeros", check(none, sizeof none));
    show("check it for a cluster of two servers", tovridsa_check(2, 0, level, 2, share, sizeof share));
    show("check a share that gave too much", check(light, sizeof light));
    show("check it for five servers of which three may crash", tovridsa_check(SERVERS, 3, level, SERVERS, share, sizeof share));
    show("check it with four start weights", tovridsa_check(SERVERS, CRASHES, level, SERVERS - 1, share, sizeof share));
    show("check it without start weights", tovridsa_check(SERVERS, CRASHES, NULL, 0, share, sizeof share));
    show("check it with start weights at the floor", tovridsa_check(SERVERS, CRASHES, at_floor, SERVERS, share, sizeof share));
    show("check an empty message with these", tovridsa_check(SERVERS, CRASHES, at_floor, SERVERS, NULL, 0));
    show("weight of server 5", weight(5, share, sizeof share));
    show("weight of server 2^32", weight(UINT64_C(1) << 32, share, sizeof share));
    show("quorum of a map with bit 5", quorum(0x3F, share, sizeof share));
    show("seats of a block of 65 bytes", tovridsa_seats(none, sizeof none));
    return 0;
}
