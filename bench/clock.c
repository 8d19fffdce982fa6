/*
 * What its own times cost an end: two plain ends, or two connections, move bursts of two segments of 1,460 bytes in order, with one
 * acknowledgement each. `clock plain BURSTS` and `clock timed BURSTS` print the cycles of the processor's clock that a segment takes with
 * its half of an acknowledgement, both ends together: the least of windows of 100 bursts. After each step a plain end's user asks which
 * timers have to run, and a connection's has it look at the time, and asks when it has to again.
 */
#include "tcpcore.h"

#include <stdio.h>
#include <stdlib.h>
#include <string.h>
#include <x86intrin.h>

enum { WINDOW = 100, SEGMENTS = 2, TEXT = 1460, CAPACITY = 65536 };

static const tcpcore_addr ADDRS[] = {{{10, 0, 0, 1}}, {{10, 0, 0, 2}}};
static tcpcore_end ends[2];
static tcpcore_connection connections[2];
static int is_timed;
static uint64_t now = 1000000;
static unsigned char text[SEGMENTS * TEXT], read_into[CAPACITY], segments[SEGMENTS + 1][TCPCORE_EMIT_ROOM];
static size_t lengths[SEGMENTS + 1];

/* What isn't done is a fault of this program. */
static void done(uint32_t answer)
{
    if (answer != TCPCORE_DONE) {
        fprintf(stderr, "clock: %s\n", tcpcore_strerror(answer));
        exit(1);
    }
}

static void open_side(int side)
{
    struct tcpcore_connection_rules rules = TCPCORE_CONNECTION_RULES_DEFAULT;
    tcpcore_config config = TCPCORE_CONFIG_DEFAULT;
    config.addr = ADDRS[side];
    config.port = (uint16_t)(1 + side);
    config.isn = 7;
    config.send_capacity = config.recv_capacity = CAPACITY;
    config.scales = 1;
    config.window_shift = TCPCORE_LEAST_SHIFT(CAPACITY);
    size_t room = is_timed ? tcpcore_connection_room(&config) : tcpcore_room(&config);
    void *block = malloc(room);
    if (!is_timed) {
        done(tcpcore_new(&ends[side], &config, block, room));
        done(side == 0 ? tcpcore_connect(&ends[0], ADDRS[1], 2) : tcpcore_listen(&ends[1]));
    } else if (side == 0) {
        done(tcpcore_connection_connect(&connections[0], &config, &rules, ADDRS[1], 2, now, block, room));
    } else {
        done(tcpcore_connection_listen(&connections[1], &config, &rules, now, block, room));
    }
}

/* Whether a segment was due, which then lies at this place. */
static int emits(int side, int at)
{
    struct tcpcore_connection_segment segment;
    struct tcpcore_transmit transmit;
    uint32_t answer = is_timed ? tcpcore_connection_emit(&connections[side], now, UINT64_MAX, segments[at], TCPCORE_EMIT_ROOM, &segment)
                               : tcpcore_transmit(&ends[side], segments[at], TCPCORE_EMIT_ROOM, &transmit);
    lengths[at] = (size_t)(is_timed ? segment.length : transmit.length);
    return answer == TCPCORE_DONE;
}

static void arrives(int side, int at)
{
    struct tcpcore_arrive_report report;
    tcpcore_addr src = ADDRS[1 - side], dst = ADDRS[side];
    done(is_timed ? tcpcore_connection_arrive(&connections[side], now, src, dst, segments[at], lengths[at], &report)
                  : tcpcore_arrive_with_report(&ends[side], src, dst, segments[at], lengths[at], &report));
}

static void keeps_time(int side)
{
    uint32_t timers;
    uint64_t next;
    if (is_timed) {
        if (tcpcore_connection_tick(&connections[side], now, &timers, &next) == TCPCORE_DONE)
            exit(1);
    } else {
        done(tcpcore_timers(&ends[side], &timers));
    }
}

static void burst(void)
{
    size_t count;
    int sent = 0;
    done(is_timed ? tcpcore_connection_send(&connections[0], now, text, sizeof text, &count)
                  : tcpcore_send(&ends[0], text, sizeof text, &count));
    while (sent <= SEGMENTS && emits(0, sent))
        sent++;
    keeps_time(0);
    for (int at = 0; at < sent; at++)
        arrives(1, at);
    keeps_time(1);
    done(is_timed ? tcpcore_connection_receive(&connections[1], now, read_into, sizeof read_into, &count)
                  : tcpcore_receive(&ends[1], read_into, sizeof read_into, &count));
    while (emits(1, 0))
        arrives(0, 0);
    keeps_time(0);
}

static void handshake(void)
{
    for (int turn = 0; turn < 2; turn++)
        for (int side = 0; side < 2; side++)
            while (emits(side, 0))
                arrives(1 - side, 0);
}

int main(int count, char **words)
{
    if (count != 3 || (strcmp(words[1], "plain") != 0 && strcmp(words[1], "timed") != 0)) {
        fprintf(stderr, "clock plain|timed BURSTS\n");
        return 2;
    }
    is_timed = words[1][0] == 't';
    open_side(1);
    open_side(0);
    handshake();
    uint64_t least = UINT64_MAX;
    for (long left = atol(words[2]); left > 0; left -= WINDOW) {
        uint64_t start = __rdtsc();
        for (int at = 0; at < WINDOW; at++) {
            now += 100;
            burst();
        }
        uint64_t took = __rdtsc() - start;
        least = took < least ? took : least;
    }
    printf("%llu\n", (unsigned long long)least / (WINDOW * SEGMENTS));
    return 0;
}
