/* The test of pairs.c: against a plain array that is searched from its front. */
#include "pairs.h"
#include "tests/check.h"

#include <string.h>

enum { PAIRS = 300, BUCKETS = 17 };

static struct pair all[PAIRS], *buckets[BUCKETS];
static int is_there[PAIRS];
static struct pairs pairs;

/* Pairs that differ in one address or port alone are among them. */
static void make(int at)
{
    all[at].client = (tcpcore_addr){{10, 0, 0, (uint8_t)(at % 3)}};
    all[at].server = (tcpcore_addr){{10, 0, 1, (uint8_t)(at / 3 % 5)}};
    all[at].client_port = (uint16_t)(1000 + at / 15 % 4);
    all[at].server_port = (uint16_t)(1000 + at / 60);
}

static void check_all(void)
{
    for (int at = 0; at < PAIRS; at++) {
        struct pair key = all[at];
        CHECK(pairs_find(&pairs, &key) == (is_there[at] ? &all[at] : NULL), 1);
    }
}

int main(void)
{
    uint32_t state = 7;
    pairs_init(&pairs, buckets, BUCKETS, (const uint8_t *)"0123456789abcdef");
    for (int at = 0; at < PAIRS; at++)
        make(at);
    for (int turn = 0; turn < 2000; turn++) {
        state = state * 1664525 + 1013904223;
        int at = (int)((state >> 8) % PAIRS);
        if (is_there[at])
            pairs_remove(&pairs, &all[at]);
        else
            pairs_add(&pairs, &all[at]);
        is_there[at] = !is_there[at];
        if (turn % 50 == 0)
            check_all();
    }
    /* Each address and port counts, and so does the secret. */
    uint64_t before = pairs_secret(&pairs, &all[0]);
    struct pair other = all[0];
    other.client.byte[0] ^= 1;
    CHECK(pairs_secret(&pairs, &other) != before, 1);
    other = all[0], other.server.byte[3] ^= 1;
    CHECK(pairs_secret(&pairs, &other) != before, 1);
    other = all[0], other.client_port ^= 1;
    CHECK(pairs_secret(&pairs, &other) != before, 1);
    other = all[0], other.server_port ^= 1;
    CHECK(pairs_secret(&pairs, &other) != before, 1);
    pairs_init(&pairs, buckets, BUCKETS, (const uint8_t *)"0123456789abcdeF");
    CHECK(pairs_secret(&pairs, &all[0]) != before, 1);
    printf("pairs: %d checks\n", checks);
    return 0;
}
