/*
 * What the tests of each access are for: an end whose bytes are chance. The portable file is built with -DTCPCORE_STOP()=stopped(), and
 * every call comes back, or stops, or goes on until a clock ends it; but never is a byte touched that isn't the end's block, its struct
 * or the call's own buffer. Without the tests (TCPCORE_UNCHECKED) it ends by a signal, or finds bytes touched.
 */
#include "stopped.h"
#include "tcpcore.h"

#include <setjmp.h>
#include <signal.h>
#include <stdint.h>
#include <stdio.h>
#include <stdlib.h>
#include <string.h>
#include <sys/time.h>

enum { CAPACITY = 1024, SEGMENT = 700, BLOCK = TCPCORE_MEMORY(CAPACITY, CAPACITY), BESIDE = 4096, PAINT = 0x5a, TURNS = 20000 };
/* Where the end begins in its block, behind buffers and tables, and what it takes there. */
enum { BEHIND = 2 * CAPACITY + 2 * TCPCORE_UNITS(8 * TCPCORE_RUNS), END_SIZE = TCPCORE_MEMORY(CAPACITY, CAPACITY) - BEHIND - 15 };

static struct {
    unsigned char before[BESIDE], block[BLOCK], between[BESIDE], out[TCPCORE_EMIT_ROOM], after[BESIDE];
} memory;
static const tcpcore_addr A = {{10, 0, 0, 1}}, B = {{10, 0, 0, 2}};
static sigjmp_buf back;
static unsigned long stops, waits, returns;
static uint32_t state = 1;

void stopped(void) { siglongjmp(back, 1); }

static void too_long(int number)
{
    (void)number;
    siglongjmp(back, 2);
}

static uint32_t next(uint32_t below)
{
    state = state * 1664525u + 1013904223u;
    return (state >> 8) % below;
}

static void call(tcpcore_end *end)
{
    struct tcpcore_status status;
    tcpcore_addr to;
    size_t length;
    uint32_t word;
    /* Of most the sums are taken ahead of their loop. */
    unsigned char segment[SEGMENT];
    size_t size = next(SEGMENT + 1);
    for (size_t i = 0; i < size; i++)
        segment[i] = (unsigned char)next(256);
    switch (next(8)) {
    case 0: tcpcore_send(end, segment, size, &length); break;
    case 1: tcpcore_receive(end, memory.out, sizeof memory.out, &length); break;
    case 2: tcpcore_emit(end, memory.out, sizeof memory.out, &to, &length); break;
    case 3: tcpcore_arrive(end, B, A, segment, size); break;
    case 4: tcpcore_timer(end, next(3)); break;
    case 5: tcpcore_status(end, &status); break;
    case 6: tcpcore_pending(end, &word); break;
    default: tcpcore_close(end);
    }
}

static void painted(const unsigned char *at)
{
    for (int i = 0; i < BESIDE; i++)
        if (at[i] != PAINT) {
            printf("stops: a byte beside the block was touched\n");
            exit(1);
        }
}

int main(void)
{
    tcpcore_config config = {.addr = A, .port = 1, .mss = 1000, .isn = 1, .send_capacity = CAPACITY, .recv_capacity = CAPACITY,
                             .limit = TCPCORE_LIMIT, .sack = 1};
    struct itimerval none = {{0, 0}, {0, 0}}, short_time = {{0, 0}, {0, 20000}};
    signal(SIGALRM, too_long);
    for (volatile int turn = 0; turn < TURNS; turn = turn + 1) {
        static tcpcore_end end;
        end = (tcpcore_end)TCPCORE_END_INIT;
        memset(&memory, PAINT, sizeof memory);
        if (tcpcore_new(&end, &config, memory.block, BLOCK) != TCPCORE_DONE || tcpcore_connect(&end, B, 2) != TCPCORE_DONE)
            return 1;
        /* Some words of what the end keeps behind its buffers and its tables. */
        for (uint32_t count = 1 + next(12); count > 0; count--)
            for (uint32_t i = 0, at = BEHIND + next(END_SIZE - 8); i < 8; i++)
                memory.block[at + i] = (unsigned char)(next(3) ? next(256) : 0);
        int how = sigsetjmp(back, 1);
        if (how == 0) {
            setitimer(ITIMER_REAL, &short_time, NULL);
            call(&end);
        }
        setitimer(ITIMER_REAL, &none, NULL);
        stops += how == 1, waits += how == 2, returns += how == 0;
        painted(memory.before), painted(memory.between), painted(memory.after);
    }
    printf("stops: %lu calls came back, %lu were stopped, %lu ended by the clock\n", returns, stops, waits);
    return stops == 0 || returns == 0;
}
