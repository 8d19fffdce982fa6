/*
 * What the tests share that have the same traffic by two pairs of ends side by side: the ends, what is under way, and random numbers,
 * beside the sums of a device. Who includes it has said CAPACITY, the room of a buffer, and WAITING, how many
 * segments may be under way to an end.
 */
#ifndef TCPCORE_PAIRS_H
#define TCPCORE_PAIRS_H

#include "check.h"
#include "sums.h"
#include "tcpcore.h"

#include <string.h>

enum { PAIRS = 2, ENDS = 2 };

static const tcpcore_addr ADDRS[ENDS] = {{{10, 0, 0, 1}}, {{10, 0, 0, 2}}};
static tcpcore_end ends[PAIRS][ENDS];
static unsigned char blocks[PAIRS][ENDS][TCPCORE_MEMORY(CAPACITY, CAPACITY)];

/* Segments that are under way to an end. */
struct segment {
    tcpcore_addr to;
    size_t length;
    unsigned char bytes[TCPCORE_EMIT_ROOM];
};
static struct segment wire[ENDS][WAITING];
static size_t waiting[ENDS];

static uint64_t word = 88172645463325252u;

static uint32_t any(uint32_t bound)
{
    word ^= word << 13;
    word ^= word >> 7;
    word ^= word << 17;
    return (uint32_t)((word >> 16) % bound);
}

static struct tcpcore_status status_of(int pair, int end)
{
    struct tcpcore_status status;
    CHECK(tcpcore_status(&ends[pair][end], &status), TCPCORE_DONE);
    return status;
}

/* Both pairs are in the same state, as far as an end says. */
static void same_states(void)
{
    for (int end = 0; end < ENDS; end++) {
        struct tcpcore_status status[PAIRS];
        struct tcpcore_transmit next[PAIRS];
        uint32_t timers[PAIRS], answers[PAIRS];
        for (int pair = 0; pair < PAIRS; pair++) {
            status[pair] = status_of(pair, end);
            answers[pair] = tcpcore_next(&ends[pair][end], &next[pair]);
            CHECK(tcpcore_timers(&ends[pair][end], &timers[pair]), TCPCORE_DONE);
        }
        CHECK(memcmp(&status[0], &status[1], sizeof *status), 0);
        CHECK(memcmp(&next[0], &next[1], sizeof *next), 0);
        CHECK(answers[1], answers[0]);
        CHECK(timers[1], timers[0]);
    }
}

#endif
