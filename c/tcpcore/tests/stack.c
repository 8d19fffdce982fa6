/* The test of TCPCORE_STACK: the stack below the caller is painted, and no call reaches deeper into it. The greatest depth, in
   bytes, goes to standard error: depth.py compares it with what the disassembly tells. */
#include "tcpcore.h"

#include <stdio.h>

/* Of the portable file it is another. */
#ifndef BOUND
#define BOUND TCPCORE_STACK
#endif

enum { DEEP = 4 * BOUND, PAINT = 0xa5 };

static const tcpcore_addr A = {{10, 0, 0, 1}}, B = {{10, 0, 0, 2}};
static tcpcore_end a = TCPCORE_END_INIT, b = TCPCORE_END_INIT;
static volatile unsigned char *lowest;
static size_t deepest;
static unsigned long count;

__attribute__((noinline)) static void paint(void)
{
    volatile unsigned char below[DEEP];
    for (int i = 0; i < DEEP; i++)
        below[i] = PAINT;
    /* Only the place is kept: what lies there is read back as bytes of the stack. */
    __asm__("" : "=r"(lowest) : "0"(below));
}

__attribute__((noinline)) static void look(const unsigned char *here)
{
    volatile unsigned char *at = lowest;
    while (*at == PAINT)
        at++;
    size_t depth = (size_t)((uintptr_t)here - (uintptr_t)at);
    deepest = depth > deepest ? depth : deepest;
}

#define DEPTH(call) \
    do { \
        unsigned char here = 0; \
        paint(); \
        (void)(call); \
        look(&here); \
    } while (0)

static void make(tcpcore_end *end, tcpcore_addr addr)
{
    tcpcore_config config = {.addr = addr, .port = 7, .mss = 100, .isn = 1, .send_capacity = 4096, .recv_capacity = 4096,
                             .limit = TCPCORE_LIMIT, .window_shift = 2, .scales = 1, .sack = 1};
    static unsigned char blocks[2][TCPCORE_MEMORY(4096, 4096)];
    DEPTH(tcpcore_new(end, &config, blocks[end == &b], sizeof *blocks));
}

/* Carries what is due, and loses each fifth segment. */
static void carry(tcpcore_end *from, tcpcore_addr src, tcpcore_end *to)
{
    static unsigned char segment[TCPCORE_EMIT_ROOM];
    struct tcpcore_transmit sent;
    struct tcpcore_arrive_report taken;
    struct tcpcore_parts parts;
    struct tcpcore_train train;
    tcpcore_addr dst;
    size_t length;
    uint32_t answer;
    for (;;) {
        DEPTH(answer = tcpcore_emit_acknowledgement(from, segment, sizeof segment, &dst, &length));
        if (answer == TCPCORE_DONE && ++count % 5 != 0)
            DEPTH(tcpcore_arrive(to, src, dst, segment, length));
        DEPTH(tcpcore_resend_first(from));
        DEPTH(answer = tcpcore_emit(from, segment, sizeof segment, &dst, &length));
        if (answer == TCPCORE_DONE && ++count % 5 != 0)
            DEPTH(tcpcore_arrive(to, src, dst, segment, length));
        DEPTH(tcpcore_next(from, &sent));
        DEPTH(answer = tcpcore_transmit(from, segment, sizeof segment, &sent));
        if (answer != TCPCORE_DONE)
            return;
        if (++count % 5 != 0)
            DEPTH(tcpcore_arrive_with_report(to, src, sent.to, segment, (size_t)sent.length, &taken));
        DEPTH(tcpcore_parts(from, segment, sizeof segment, &parts));
        DEPTH(answer = tcpcore_emit_partial(from, segment, sizeof segment, &dst, &length));
        if (answer == TCPCORE_DONE && ++count % 5 != 0)
            DEPTH(count % 2 ? tcpcore_arrive_vouched(to, src, dst, segment, length)
                            : tcpcore_arrive_vouched_with_report(to, src, dst, segment, length, &taken));
        DEPTH(tcpcore_sent(from));
        DEPTH(answer = tcpcore_emit_train(from, segment, sizeof segment, 4, &train));
        if (answer == TCPCORE_DONE && ++count % 5 != 0)
            DEPTH(tcpcore_arrive_vouched(to, src, train.whole.to, segment, (size_t)train.whole.length));
    }
}

int main(void)
{
    static unsigned char text[4096];
    struct tcpcore_status status;
    struct tcpcore_lent lent;
    size_t length;
    uint32_t due;
    make(&a, A);
    make(&b, B);
    DEPTH(tcpcore_listen(&b));
    DEPTH(tcpcore_connect(&a, B, 7));
    for (size_t turn = 0; turn < 500; turn++) {
        carry(&a, A, &b);
        carry(&b, B, &a);
        DEPTH(tcpcore_send(&a, text, turn * 37 % sizeof text, &length));
        DEPTH(tcpcore_receive(&b, text, turn * 61 % sizeof text, &length));
        DEPTH(tcpcore_peek(&b, &lent));
        DEPTH(tcpcore_consume(&b, turn * 41 % sizeof text, &length));
        DEPTH(tcpcore_timers(&a, &due));
        DEPTH(tcpcore_status(&a, &status));
        for (uint32_t timer = TCPCORE_TIMER_RETRANSMIT; timer <= TCPCORE_TIMER_TIME_WAIT; timer++) {
            DEPTH(tcpcore_timer(&a, timer));
            DEPTH(tcpcore_timer(&b, timer));
        }
    }
    DEPTH(tcpcore_close(&a));
    DEPTH(tcpcore_abort(&b));
    carry(&b, B, &a);
    DEPTH(tcpcore_free(&a));
    DEPTH(tcpcore_free(&b));
    if (count < 1000 || deepest > BOUND) {
        printf("stack: %lu segments, %zu bytes of stack, and TCPCORE_STACK is %d\n", count, deepest, BOUND);
        return 1;
    }
    fprintf(stderr, "%zu\n", deepest);
    printf("stack: no call went deeper than TCPCORE_STACK\n");
    return 0;
}
