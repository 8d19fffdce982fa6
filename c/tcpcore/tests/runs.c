/*
 * The test of `runs` in a config: an end keeps as many runs of bytes out of order and not one more (RFC 9293, 3.10.7.4), and remembers as
 * many of those that the peer's blocks report (RFC 2018, 5). Of a stream in segments of one size each second one is lost, so that there is
 * a run behind each gap.
 */
#include "check.h"
#include "tcpcore.h"

#include <string.h>

enum { MSS = 64, CAPACITY = 1 << 20 };

static const tcpcore_addr A = {{10, 0, 0, 1}}, B = {{10, 0, 0, 2}};
static unsigned char blocks[2][TCPCORE_MEMORY_RUNS(CAPACITY, CAPACITY, TCPCORE_MAX_RUNS)], text[CAPACITY], found[CAPACITY];
static tcpcore_end a = TCPCORE_END_INIT, b = TCPCORE_END_INIT;

static void make(tcpcore_end *end, tcpcore_addr addr, uint16_t runs)
{
    tcpcore_config config = TCPCORE_CONFIG_DEFAULT;
    config.addr = addr;
    config.port = 7;
    config.mss = MSS;
    config.isn = 1;
    config.send_capacity = config.recv_capacity = CAPACITY;
    config.scales = 1;
    config.window_shift = TCPCORE_LEAST_SHIFT(CAPACITY);
    config.runs = runs;
    CHECK(tcpcore_new(end, &config, blocks[end == &b], tcpcore_room(&config)), TCPCORE_DONE);
}

/* Hands the segment that is due to the other end; whether there was one. */
static int carry_one(tcpcore_end *from, tcpcore_addr src, tcpcore_end *to)
{
    unsigned char segment[TCPCORE_EMIT_ROOM];
    tcpcore_addr dst;
    size_t length;
    if (tcpcore_emit(from, segment, sizeof segment, &dst, &length) != TCPCORE_DONE)
        return 0;
    CHECK(tcpcore_arrive(to, src, dst, segment, length), TCPCORE_DONE);
    return 1;
}

static void open_both(uint16_t of_a, uint16_t of_b)
{
    make(&a, A, of_a);
    make(&b, B, of_b);
    CHECK(tcpcore_listen(&b), TCPCORE_DONE);
    CHECK(tcpcore_connect(&a, B, 7), TCPCORE_DONE);
    CHECK(carry_one(&a, A, &b) && carry_one(&b, B, &a) && carry_one(&a, A, &b), 1);
}

/* A sends `gaps` gaps and a run behind each; B's acknowledgement of each run comes at once. How many runs B has kept. */
static size_t send_with_gaps(size_t gaps)
{
    unsigned char segment[TCPCORE_EMIT_ROOM];
    struct tcpcore_arrive_report report;
    struct tcpcore_transmit sent;
    size_t taken, kept = 0;
    CHECK(tcpcore_send(&a, text, 2 * gaps * MSS, &taken), TCPCORE_DONE);
    CHECK(taken, 2 * gaps * MSS);
    for (size_t at = 0; at < 2 * gaps; at++) {
        CHECK(tcpcore_transmit(&a, segment, sizeof segment, &sent), TCPCORE_DONE);
        CHECK(sent.kind, TCPCORE_KIND_NEW_TEXT);
        CHECK(sent.count, MSS);
        if (at % 2 == 0)
            continue;
        CHECK(tcpcore_arrive_with_report(&b, A, B, segment, sent.length, &report), TCPCORE_DONE);
        CHECK(report.brought == TCPCORE_BROUGHT_HELD || report.brought == TCPCORE_BROUGHT_NOT_KEPT, 1);
        kept += report.brought == TCPCORE_BROUGHT_HELD;
        CHECK(carry_one(&b, B, &a), 1);
    }
    return kept;
}

/* What the timer has A send again, in bytes; all of it comes, and then what B answers. */
static size_t send_again(uint32_t timer)
{
    unsigned char segment[TCPCORE_EMIT_ROOM];
    struct tcpcore_transmit sent;
    size_t again = 0;
    CHECK(tcpcore_timer(&a, timer), TCPCORE_DONE);
    while (tcpcore_transmit(&a, segment, sizeof segment, &sent) == TCPCORE_DONE) {
        CHECK(sent.kind, TCPCORE_KIND_TEXT_AGAIN);
        again += sent.count;
        tcpcore_arrive(&b, A, B, segment, sent.length);
    }
    while (carry_one(&b, B, &a))
        ;
    return again;
}

/* B has read all that A has sent, and nothing is in flight any more. */
static void is_complete(size_t length)
{
    struct tcpcore_status status;
    size_t count;
    CHECK(tcpcore_receive(&b, found, sizeof found, &count), TCPCORE_DONE);
    CHECK(count, length);
    CHECK(memcmp(found, text, length), 0);
    CHECK(tcpcore_status(&a, &status), TCPCORE_DONE);
    CHECK(status.in_flight, 0);
    CHECK(tcpcore_free(&a), TCPCORE_DONE);
    CHECK(tcpcore_free(&b), TCPCORE_DONE);
}

/* Two ends with these numbers, and a stream with so many gaps: B keeps so many of the runs, and A sends so many of the gaps again where
   it takes what the blocks passed over for lost. */
static void tries(uint16_t of_a, uint16_t of_b, size_t gaps, size_t kept, size_t again)
{
    uint32_t timers;
    open_both(of_a, of_b);
    CHECK(send_with_gaps(gaps), kept);
    CHECK(send_again(TCPCORE_TIMER_REORDER), again * MSS);
    CHECK(tcpcore_timers(&a, &timers), TCPCORE_DONE);
    CHECK(timers & 1U << TCPCORE_TIMER_RETRANSMIT, again < gaps ? 1U << TCPCORE_TIMER_RETRANSMIT : 0);
    if (again < gaps)
        send_again(TCPCORE_TIMER_RETRANSMIT);
    is_complete(2 * gaps * MSS);
}

int main(void)
{
    static const uint16_t NUMBERS[] = {1, 2, 4, 16, TCPCORE_RUNS, 300, TCPCORE_MAX_RUNS};
    for (size_t at = 0; at < sizeof text; at++)
        text[at] = (unsigned char)(at * 7 + at / 251);
    for (size_t at = 0; at < sizeof NUMBERS / sizeof *NUMBERS; at++) {
        uint16_t runs = NUMBERS[at];
        tries(runs, runs, runs, runs, runs);
        /* One run more isn't kept. */
        tries(runs, runs, runs + 1U, runs, runs);
        tries(TCPCORE_MAX_RUNS, runs, runs + 1U, runs, runs);
        if (runs == TCPCORE_MAX_RUNS)
            continue;
        /* One run more is kept, and isn't remembered: the gap before it counts as lost by the timeout alone. */
        tries(runs, TCPCORE_MAX_RUNS, runs + 1U, runs + 1U, runs);
    }
    tries(0, 0, TCPCORE_RUNS, TCPCORE_RUNS, TCPCORE_RUNS);
    tries(0, 0, TCPCORE_RUNS + 1, TCPCORE_RUNS, TCPCORE_RUNS);
    printf("runs: an end keeps and remembers as many as its config says, and not one more\n");
    return 0;
}
