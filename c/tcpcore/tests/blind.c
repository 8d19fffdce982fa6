/*
 * How many segments a blind attacker needs (RFC 5961, 1): one that isn't on the path, so that it knows addresses and ports but no
 * sequence number. Each segment has a random sequence number and a random acknowledgement. Two of the counts of the numbers that
 * are let in (docs/PROOFS.md) are measured:
 *   - at a shut window an acknowledgement alone needs no sequence number, and releases text where it acknowledges anything that is
 *     in flight: so many numbers of 2^32;
 *   - at an open window text is taken where any of its bytes lies in the window, by window + text - 1 sequence numbers, and its
 *     acknowledgement is taken by 2^31 + flight + 1 numbers.
 * The count of segments up to the first that is let in is distributed geometrically: its standard deviation is its mean, nearly,
 * and that of the mean of ROUNDS of them is that by the square root of ROUNDS. Each mean has to lie within four of these.
 *
 * With a guard (RFC 5961, 5.2) the same segments are let in by far fewer numbers: at a shut window by reach + capacity + 2 sequence
 * numbers and by as many acknowledgements as are in flight; at an open one by reach + flight + 1 acknowledgements. Of MILLIONS million
 * segments of either kind (the number that the program is given, or 2) those that are let in are counted: so many as the counts of
 * numbers have at most, and four of their standard deviations, and a segment.
 */
#include "carry.h"
#include "check.h"
#include "sums.h"
#include "tcpcore.h"

#include <stdlib.h>
#include <string.h>

enum { LARGE = 1 << 20, SMALL = 1000, TEXT = 1460, HEADER = 20, ROUNDS = 1024, ACK = 0x10 };

/* Four times the square root of ROUNDS. */
static const uint64_t FOUR_DEVIATIONS = 128;

/* A guard that reaches as far as two buffers of 65,535 bytes, and how many segments are tried past one. */
enum { SHORT_REACH = 1 << 17, USUAL = 65535 };
static uint64_t segments = 2000000;

static const tcpcore_addr A = {{10, 0, 0, 1}}, B = {{10, 0, 0, 2}};
static const uint16_t PORTS[2] = {1, 2};
static unsigned char blocks[2][TCPCORE_MEMORY(LARGE, LARGE)];
static tcpcore_end a = TCPCORE_END_INIT, b = TCPCORE_END_INIT;
static const unsigned char text[LARGE];

/* xorshift64 (Marsaglia, 2003), from a fixed seed. */
static uint64_t word = 88172645463325252u;

static uint32_t any(void)
{
    word ^= word << 13;
    word ^= word >> 7;
    word ^= word << 17;
    return (uint32_t)(word >> 16);
}

static void put32(unsigned char *at, uint32_t value)
{
    put16(at, value >> 16);
    put16(at + 2, value & 0xffff);
}

/* A segment from B's address and port to A's, with random numbers. Its text is zeros, which add nothing to the sum (RFC 9293, 3.1). */
static void guess(unsigned char *segment, size_t length)
{
    memset(segment, 0, HEADER);
    put16(segment, PORTS[1]);
    put16(segment + 2, PORTS[0]);
    put32(segment + 4, any());
    put32(segment + 8, any());
    segment[12] = HEADER / 4 << 4;
    segment[13] = ACK;
    put16(segment + 14, any() & 0xffff);
    put16(segment + 16, 0xffff - summed(pseudo(B, A, length), segment, HEADER));
}

static void make(tcpcore_end *end, tcpcore_addr addr, int which, size_t recv_capacity)
{
    tcpcore_config config = {.addr = addr, .port = PORTS[which], .mss = TEXT, .isn = any(), .send_capacity = LARGE,
                             .recv_capacity = recv_capacity, .limit = TCPCORE_LIMIT, .window_shift = recv_capacity == LARGE ? 5 : 0,
                             .scales = 1};
    CHECK(tcpcore_new(end, &config, blocks[which], sizeof blocks[which]), TCPCORE_DONE);
}

/* A and B have opened a connection, with new initial numbers; B has sent A this many bytes. */
static void open_connection(size_t recv_capacity, size_t count)
{
    size_t taken;
    make(&a, A, 0, recv_capacity);
    make(&b, B, 1, LARGE);
    CHECK(tcpcore_listen(&b), TCPCORE_DONE);
    CHECK(tcpcore_connect(&a, B, PORTS[1]), TCPCORE_DONE);
    carry(&a, A, &b);
    carry(&b, B, &a);
    carry(&a, A, &b);
    CHECK(tcpcore_send(&b, text, count, &taken), TCPCORE_DONE);
    CHECK(taken, count);
    carry(&b, B, &a);
    carry(&a, A, &b);
}

static void free_both(void)
{
    CHECK(tcpcore_free(&a), TCPCORE_DONE);
    CHECK(tcpcore_free(&b), TCPCORE_DONE);
}

/* A's window is this, and this many bytes of its text are in flight. */
static void stands_at(size_t window, size_t in_flight)
{
    struct tcpcore_status status;
    CHECK(tcpcore_status(&a, &status), TCPCORE_DONE);
    CHECK(status.phase, TCPCORE_PHASE_ESTABLISHED);
    CHECK(status.rcv_wnd, window);
    CHECK(status.in_flight, in_flight);
}

/* A sends all that fits, and nothing of it arrives. */
static void send_into_the_void(void)
{
    unsigned char segment[TCPCORE_EMIT_ROOM];
    tcpcore_addr to;
    size_t length, taken;
    CHECK(tcpcore_send(&a, text, LARGE, &taken), TCPCORE_DONE);
    CHECK(taken, LARGE);
    while (tcpcore_emit(&a, segment, sizeof segment, &to, &length) == TCPCORE_DONE)
        ;
}

/* Guesses until one is taken by this rule, and reports what it did; their count. */
static uint64_t guesses_until(uint32_t rule, size_t length, struct tcpcore_arrive_report *taken)
{
    static unsigned char segment[HEADER + TEXT];
    for (uint64_t count = 1;; count++) {
        guess(segment, length);
        tcpcore_arrive_with_report(&a, B, A, segment, length, taken);
        if (taken->rule == rule && (taken->acked > 0 || taken->brought != TCPCORE_BROUGHT_NOTHING))
            return count;
    }
}

/* The sum of ROUNDS counts lies within four of its standard deviations, of sqrt(ROUNDS) * mean, of what the law gives. */
static void within(const char *what, uint64_t sum, uint64_t mean)
{
    uint64_t wanted = ROUNDS * mean;
    fprintf(stderr, "%s: %llu segments\n", what, (unsigned long long)(sum / ROUNDS));
    CHECK(sum >= wanted - FOUR_DEVIATIONS * mean && sum <= wanted + FOUR_DEVIATIONS * mean, 1);
    printf("%s: %llu segments by the law\n", what, (unsigned long long)mean);
}

/* An acknowledgement alone, at a shut window, of LARGE bytes in flight: 2^32 / LARGE. Nothing of what it releases was delivered. */
static void at_a_shut_window(void)
{
    struct tcpcore_arrive_report taken;
    uint64_t sum = 0, released = 0;
    for (int round = 0; round < ROUNDS; round++) {
        open_connection(SMALL, SMALL);
        send_into_the_void();
        stands_at(0, LARGE);
        sum += guesses_until(TCPCORE_RULE_TAKEN_SHUT, HEADER, &taken);
        released += taken.acked;
        free_both();
    }
    within("an acknowledgement at a shut window", sum, (UINT64_C(1) << 32) / LARGE);
    fprintf(stderr, "released by it: %llu bytes\n", (unsigned long long)(released / ROUNDS));
}

/* Text, at an open window of LARGE bytes with nothing in flight: 2^64 / ((LARGE + TEXT - 1) * (2^31 + 1)), to the nearest. */
static void at_an_open_window(void)
{
    struct tcpcore_arrive_report taken;
    uint64_t sum = 0;
    for (int round = 0; round < ROUNDS; round++) {
        open_connection(LARGE, 0);
        stands_at(LARGE, 0);
        sum += guesses_until(TCPCORE_RULE_TAKEN, HEADER + TEXT, &taken);
        CHECK(taken.brought == TCPCORE_BROUGHT_HELD || taken.brought == TCPCORE_BROUGHT_IN_ORDER, 1);
        free_both();
    }
    within("text at an open window", sum, ((UINT64_C(1) << 33) + (LARGE + TEXT - 1) / 2) / (LARGE + TEXT - 1));
}

/* A new connection at whose end A a window of 0 or of `window` is open, and all of its buffer is in flight, or nothing. */
static void begin(int is_shut, size_t window)
{
    if (is_shut) {
        open_connection(SMALL, SMALL);
        send_into_the_void();
    } else {
        open_connection(window, 0);
    }
}

/* Of `segments` guesses so many are let in past a guard of this reach. The connection begins anew behind each. */
static uint64_t let_in(int is_shut, size_t window, uint32_t reach)
{
    static unsigned char segment[HEADER + TEXT];
    struct tcpcore_intake intake = {.guard = reach};
    struct tcpcore_arrive_report taken;
    size_t length = is_shut ? HEADER : HEADER + TEXT;
    uint64_t count = 0;
    begin(is_shut, window);
    for (uint64_t at = 0; at < segments; at++) {
        guess(segment, length);
        tcpcore_arrive_by(&a, B, A, segment, length, &intake, &taken);
        if (taken.acked == 0 && taken.brought != TCPCORE_BROUGHT_IN_ORDER && taken.brought != TCPCORE_BROUGHT_HELD)
            continue;
        count++;
        free_both();
        begin(is_shut, window);
    }
    free_both();
    return count;
}

/* At most so many as `numbers` sequence numbers and `acks` acknowledgements let in, of 2^64 pairs. */
static void past_a_guard(const char *what, int is_shut, size_t window, uint32_t reach, uint64_t numbers, uint64_t acks)
{
    double one_in = 4294967296.0 / (double)numbers * (4294967296.0 / (double)acks), most = (double)segments / one_in;
    double over = (double)let_in(is_shut, window, reach) - most - 1;
    fprintf(stderr, "%s: %.0f of %llu, at most %.2f by the law\n", what, over + most + 1, (unsigned long long)segments, most);
    CHECK(over <= 0 || over * over <= 16 * most, 1);
    printf("%s: one in %.0f by the law at most\n", what, one_in);
}

int main(int count, char **words)
{
    at_a_shut_window();
    at_an_open_window();
    if (count == 2)
        segments = 1000000 * strtoull(words[1], NULL, 10);
    past_a_guard("an acknowledgement at a shut window past a guard of 2^17", 1, 0, SHORT_REACH, SHORT_REACH + SMALL + 2, LARGE);
    past_a_guard("text at a window of 2^20 past a guard of 2^17", 0, LARGE, SHORT_REACH, LARGE + TEXT - 1, SHORT_REACH + 1);
    past_a_guard("text at a window of 65,535 past the default guard", 0, USUAL, 0, USUAL + TEXT - 1, TCPCORE_GUARD + 1);
    return 0;
}
