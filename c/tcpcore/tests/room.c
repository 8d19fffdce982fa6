/*
 * The test of tcpcore_room, TCPCORE_MEMORY and TCPCORE_MEMORY_RUNS: at each alignment they are enough, one byte less isn't, and no
 * byte beside the block is touched, by a transfer either.
 */
#include "carry.h"
#include "tcpcore.h"

#include <stdio.h>
#include <stdlib.h>
#include <string.h>

enum { UNIT = 16, PAINT = 0xee };

static const tcpcore_addr A = {{10, 0, 0, 1}}, B = {{10, 0, 0, 2}};
static _Alignas(tcpcore_config) unsigned char memory[TCPCORE_MEMORY_RUNS(1 << 20, 1 << 20, TCPCORE_MAX_RUNS) + 3 * UNIT];
static unsigned char other[TCPCORE_MEMORY(1 << 20, 1 << 20)];

#define NEED(found, wanted) need(#found, __LINE__, (unsigned long long)(found), (unsigned long long)(wanted))

static void need(const char *what, int line, unsigned long long found, unsigned long long wanted)
{
    if (found != wanted) {
        printf("room.c:%d: %s is %llu, not %llu\n", line, what, found, wanted);
        exit(1);
    }
}

static tcpcore_config config_of(tcpcore_addr addr, size_t send, size_t recv)
{
    return (tcpcore_config){.addr = addr, .port = 7, .mss = 1000, .isn = 1, .send_capacity = send, .recv_capacity = recv,
                            .limit = TCPCORE_LIMIT, .sack = 1};
}

/* The bytes from one place up to another are as they were painted. */
static void untouched(const unsigned char *from, const unsigned char *to)
{
    for (; from < to; from++)
        if (*from != PAINT)
            NEED(*from, PAINT);
}

/* Both buffers are filled, whatever the block held, and read again. */
static void fills(tcpcore_end *end, size_t send, size_t recv)
{
    static unsigned char text[1 << 20], found[1 << 20];
    tcpcore_end peer = TCPCORE_END_INIT;
    tcpcore_config config = config_of(B, 1 << 20, 1 << 20);
    size_t count, read = 0;
    for (size_t at = 0; at < sizeof text; at++)
        text[at] = (unsigned char)(at * 7);
    NEED(tcpcore_new(&peer, &config, other, sizeof other), TCPCORE_DONE);
    NEED(tcpcore_listen(&peer), TCPCORE_DONE);
    NEED(tcpcore_connect(end, B, 7), TCPCORE_DONE);
    NEED(tcpcore_send(end, text, sizeof text, &count), TCPCORE_DONE);
    NEED(count, send);
    for (int turn = 0; turn < 3; turn++) {
        carry(end, A, &peer);
        carry(&peer, B, end);
    }
    NEED(tcpcore_receive(&peer, found, sizeof found, &count), TCPCORE_DONE);
    NEED(memcmp(found, text, count), 0);
    NEED(tcpcore_send(&peer, text, recv, &count), TCPCORE_DONE);
    while (read < recv && read < 65535) {
        carry(&peer, B, end);
        NEED(tcpcore_receive(end, found, sizeof found, &count), TCPCORE_DONE);
        NEED(memcmp(found, text + read, count), 0);
        read += count;
        carry(end, A, &peer);
    }
    NEED(tcpcore_free(&peer), TCPCORE_DONE);
}

/* A block `offset` bytes behind a multiple of UNIT, for an end with so many runs; 0 is TCPCORE_RUNS. */
static void tries(size_t send, size_t recv, uint16_t runs, size_t offset)
{
    tcpcore_end end = TCPCORE_END_INIT;
    tcpcore_config config = config_of(A, send, recv);
    config.runs = runs;
    unsigned char *block = memory + UNIT + -(uintptr_t)memory % UNIT + offset;
    size_t room = tcpcore_room(&config), least = room - (offset == 0 ? UNIT - 1 : offset - 1);
    NEED(room, runs == 0 ? TCPCORE_MEMORY(send, recv) : TCPCORE_MEMORY_RUNS(send, recv, runs));
    memset(memory, PAINT, sizeof memory);
    NEED(tcpcore_new(&end, &config, block, least - 1), TCPCORE_NO_MEMORY);
    NEED(tcpcore_new(&end, &config, block, 0), TCPCORE_NO_MEMORY);
    memset(memory, PAINT, sizeof memory);
    NEED(tcpcore_new(&end, &config, block, least), TCPCORE_DONE);
    fills(&end, send, recv);
    NEED(tcpcore_free(&end), TCPCORE_DONE);
    untouched(memory, block);
    untouched(block + least, memory + sizeof memory);
    NEED(tcpcore_new(&end, &config, block, room), TCPCORE_DONE);
    NEED(tcpcore_free(&end), TCPCORE_DONE);
    untouched(block + room, memory + sizeof memory);
}

int main(void)
{
    static const size_t pairs[][2] = {{1, 1}, {1, 17}, {16, 15}, {4096, 1000}, {1 << 20, 1 << 20}};
    for (size_t at = 0; at < sizeof pairs / sizeof *pairs; at++)
        for (size_t offset = 0; offset < UNIT; offset += at == 4 ? 5 : 1)
            tries(pairs[at][0], pairs[at][1], 0, offset);
    static const uint16_t RUNS[] = {1, 2, 3, 4, 16, 64, 300, 4095, TCPCORE_MAX_RUNS};
    for (size_t at = 0; at < sizeof RUNS / sizeof *RUNS; at++)
        for (size_t offset = 0; offset < UNIT; offset += 5)
            tries(1000, 17, RUNS[at], offset);
    /* An end with 16 runs takes 816 bytes beside its buffers, and one with 4 less. */
    NEED(TCPCORE_MEMORY_RUNS(0, 0, 16) <= 816 + UNIT - 1, 1);
    NEED(TCPCORE_MEMORY_RUNS(0, 0, 4) < TCPCORE_MEMORY_RUNS(0, 0, 16), 1);
    /* The config may lie in the block. */
    tcpcore_end end = TCPCORE_END_INIT;
    tcpcore_config config = config_of(A, 1000, 1000);
    memcpy(memory, &config, sizeof config);
    NEED(tcpcore_new(&end, (const tcpcore_config *)(void *)memory, memory, tcpcore_room(&config)), TCPCORE_DONE);
    NEED(tcpcore_connect(&end, B, 7), TCPCORE_DONE);
    NEED(tcpcore_free(&end), TCPCORE_DONE);
    printf("room: TCPCORE_MEMORY and TCPCORE_MEMORY_RUNS are enough, and one byte less isn't\n");
    return 0;
}
