/*
 * The test of tcpcore_new_at: at each alignment TCPCORE_STRUCT_ROOM bytes more than TCPCORE_MEMORY are enough, and one byte less isn't;
 * no byte beside the block is touched; the end is found through a pointer that was copied, and not in a block that was; and what is
 * refused.
 */
#include "carry.h"
#include "check.h"
#include "tcpcore.h"

#include <string.h>

enum { UNIT = 16, PAINT = 0xee, SEND = 100, RECEIVE = 50, WANTED = TCPCORE_MEMORY(SEND, RECEIVE) + TCPCORE_STRUCT_ROOM };

static const tcpcore_addr A = {{10, 0, 0, 1}}, B = {{10, 0, 0, 2}};
static _Alignas(UNIT) unsigned char memory[WANTED + 3 * UNIT], other[WANTED + 3 * UNIT];

static tcpcore_config config_of(tcpcore_addr addr)
{
    return (tcpcore_config){.addr = addr, .port = 7, .mss = 1000, .isn = 1, .send_capacity = SEND, .recv_capacity = RECEIVE,
                            .limit = TCPCORE_LIMIT, .sack = 1};
}

/* Between the two ends go the handshake and a text, which is read. */
static void transfer(tcpcore_end *a, tcpcore_end *b)
{
    char found[RECEIVE];
    size_t count;
    CHECK(tcpcore_listen(b), TCPCORE_DONE);
    CHECK(tcpcore_connect(a, B, 7), TCPCORE_DONE);
    CHECK(tcpcore_send(a, "a text of 20 letters", 20, &count), TCPCORE_DONE);
    for (int turn = 0; turn < 3; turn++) {
        carry(a, A, b);
        carry(b, B, a);
    }
    CHECK(tcpcore_receive(b, found, sizeof found, &count), TCPCORE_DONE);
    CHECK(count, 20);
    CHECK(memcmp(found, "a text of 20 letters", 20), 0);
}

/* A block that begins at each byte of a unit. */
static void wherever_it_begins(void)
{
    tcpcore_config here = config_of(A), there = config_of(B);
    for (size_t at = UNIT; at < 2 * UNIT; at++) {
        tcpcore_end *a, *b;
        memset(memory, PAINT, sizeof memory);
        memset(other, PAINT, sizeof other);
        CHECK(tcpcore_new_at(&a, &here, memory + at, WANTED), TCPCORE_DONE);
        CHECK(tcpcore_new_at(&b, &there, other + at, WANTED), TCPCORE_DONE);
        CHECK((unsigned char *)a - memory, (at + UNIT - 1) / UNIT * UNIT);
        tcpcore_end *copy = a;
        transfer(copy, b);
        CHECK(tcpcore_free(copy), TCPCORE_DONE);
        CHECK(tcpcore_free(a), TCPCORE_NO_END);
        CHECK(tcpcore_free(b), TCPCORE_DONE);
        for (size_t i = 0; i < sizeof memory; i++)
            if (i < at || i >= at + WANTED)
                CHECK(memory[i] == PAINT && other[i] == PAINT, 1);
    }
}

/* How many bytes are enough, by the block's alignment: what lies before its first unit isn't used. */
static void no_less(void)
{
    tcpcore_config config = config_of(A);
    CHECK(tcpcore_room(&config) + TCPCORE_STRUCT_ROOM, WANTED);
    for (size_t before = 0; before < UNIT; before++) {
        tcpcore_end *end;
        size_t enough = WANTED - (UNIT - 1) + before;
        CHECK(tcpcore_new_at(&end, &config, memory + UNIT - before, enough), TCPCORE_DONE);
        CHECK(tcpcore_free(end), TCPCORE_DONE);
        CHECK(tcpcore_new_at(&end, &config, memory + UNIT - before, enough - 1), TCPCORE_NO_MEMORY);
        CHECK(end == NULL, 1);
        /* Not even room for the struct. */
        CHECK(tcpcore_new_at(&end, &config, memory + UNIT - before, before + TCPCORE_STRUCT_ROOM - 1), TCPCORE_NO_MEMORY);
        CHECK(end == NULL, 1);
    }
}

/* The answer is this one, and the end is NULL. */
static void refuses(uint32_t wanted, const tcpcore_config *config, void *block, size_t length)
{
    tcpcore_end *end = (tcpcore_end *)memory;
    CHECK(tcpcore_new_at(&end, config, block, length), wanted);
    CHECK(end == NULL, 1);
}

static void what_is_refused(void)
{
    tcpcore_config config = config_of(A), bad = config;
    CHECK(tcpcore_new_at(NULL, &config, memory, sizeof memory), TCPCORE_NULL);
    refuses(TCPCORE_NULL, NULL, memory, sizeof memory);
    refuses(TCPCORE_NULL, &config, NULL, 1);
    refuses(TCPCORE_NO_MEMORY, &config, NULL, 0);
    refuses(TCPCORE_LENGTH, &config, memory, SIZE_MAX);
    /* The config's own faults come first, wherever there is no room for an end. */
    bad.mss = 63;
    refuses(TCPCORE_BAD_MSS, &bad, memory, sizeof memory);
    refuses(TCPCORE_BAD_MSS, &bad, memory, 0);
    bad.send_capacity = 0;
    refuses(TCPCORE_BAD_CAPACITY, &bad, NULL, 0);
    /* The place for the answer lies in the block: nothing is written. */
    memset(memory, PAINT, sizeof memory);
    CHECK(tcpcore_new_at((tcpcore_end **)(void *)(memory + UNIT), &config, memory, sizeof memory), TCPCORE_OVERLAP);
    CHECK(memory[UNIT], PAINT);
    CHECK(memory[0], PAINT);
}

/* The config may lie where the struct comes to lie; and an end whose block was copied isn't found in the copy. */
static void what_is_moved(void)
{
    tcpcore_config config = config_of(A);
    tcpcore_end *end, *copy = (tcpcore_end *)(void *)other;
    uint32_t due;
    memcpy(memory, &config, sizeof config);
    CHECK(tcpcore_new_at(&end, (const tcpcore_config *)(const void *)memory, memory, sizeof memory), TCPCORE_DONE);
    memcpy(other, memory, sizeof other);
    CHECK(tcpcore_pending(copy, &due), TCPCORE_COPIED);
    CHECK(tcpcore_pending(end, &due), TCPCORE_DONE);
    CHECK(tcpcore_free(copy), TCPCORE_COPIED);
    CHECK(tcpcore_free(end), TCPCORE_DONE);
}

int main(void)
{
    wherever_it_begins();
    no_less();
    what_is_refused();
    what_is_moved();
    puts("placed: as tcpcore.h says");
    return 0;
}
