/*
 * handed MODE COUNT: two ends of the C library, in memory that the program hands in, moved as crates/bench_transfer moves two of Rattle's.
 * - in_order: COUNT bursts of two segments with an acknowledgement, their text copied in and out; each_acknowledged: with one of each.
 * - one_byte: the same with segments of one byte; sixteen: as in_order, with bursts of 16 segments.
 * - connection: makes two ends, opens, closes them one after the other, and frees them, COUNT times.
 * - lent: as in_order, but the reader has the text lent, and both ends leave sums to a device.
 * - trains: as lent, with bursts of TRAIN segments that go out as one, and arrive so.
 */
#include "tcpcore.h"

#include <stdio.h>
#include <stdlib.h>
#include <string.h>

enum { SEGMENT = 1460, CAPACITY = 65536, TRAIN = 30 };

static const tcpcore_addr A = {{10, 0, 0, 1}}, B = {{10, 0, 0, 2}};
static unsigned char blocks[2][TCPCORE_MEMORY(CAPACITY, CAPACITY)], text[TRAIN * SEGMENT], read_bytes[16 * SEGMENT];
static tcpcore_end a = TCPCORE_END_INIT, b = TCPCORE_END_INIT;
static int is_lent;

static void make(tcpcore_end *end, tcpcore_addr addr, uint16_t port)
{
    tcpcore_config config = {.addr = addr, .port = port, .mss = SEGMENT, .isn = 1000, .send_capacity = CAPACITY,
                             .recv_capacity = CAPACITY, .limit = TCPCORE_LIMIT << 30, .window_shift = 5, .scales = 1, .sack = 1};
    if (tcpcore_new(end, &config, blocks[end == &b], sizeof blocks[0]) != TCPCORE_DONE)
        exit(1);
}

/* Carries the segment that is due, if one is. */
static void carry(tcpcore_end *from, tcpcore_addr src, tcpcore_end *to)
{
    unsigned char segment[TCPCORE_EMIT_ROOM];
    tcpcore_addr dst;
    size_t length;
    if (is_lent && tcpcore_emit_partial(from, segment, sizeof segment, &dst, &length) == TCPCORE_DONE)
        tcpcore_arrive_vouched(to, src, dst, segment, length);
    else if (!is_lent && tcpcore_emit(from, segment, sizeof segment, &dst, &length) == TCPCORE_DONE)
        tcpcore_arrive(to, src, dst, segment, length);
}

static void open_both(void)
{
    make(&a, A, 1);
    make(&b, B, 2);
    tcpcore_listen(&b);
    tcpcore_connect(&a, B, 2);
    carry(&a, A, &b);
    carry(&b, B, &a);
    carry(&a, A, &b);
}

static int connection(void)
{
    struct tcpcore_status of_a, of_b;
    open_both();
    tcpcore_close(&a);
    carry(&a, A, &b);
    carry(&b, B, &a);
    tcpcore_close(&b);
    carry(&b, B, &a);
    carry(&a, A, &b);
    tcpcore_status(&a, &of_a);
    tcpcore_status(&b, &of_b);
    tcpcore_free(&a);
    tcpcore_free(&b);
    /* So that each program has a call of memcpy here, by which the time is taken. */
    memcpy(read_bytes, text, (size_t)of_a.phase);
    return of_a.phase == TCPCORE_PHASE_TIME_WAIT && of_b.phase == TCPCORE_PHASE_CLOSED;
}

/* Carries all segments that are due as one. */
static void carry_train(void)
{
    static unsigned char segments[TCPCORE_TRAIN_ROOM];
    struct tcpcore_train train;
    if (tcpcore_emit_train(&a, segments, sizeof segments, TRAIN, &train) == TCPCORE_DONE)
        tcpcore_arrive_vouched(&b, A, B, segments, (size_t)train.whole.length);
}

static void read_lent(void)
{
    struct tcpcore_lent lent;
    size_t count;
    if (tcpcore_peek(&b, &lent) == TCPCORE_DONE)
        tcpcore_consume(&b, lent.first.length + lent.second.length, &count);
}

static void burst_of_trains(void)
{
    size_t count;
    tcpcore_send(&a, text, sizeof text, &count);
    carry_train();
    /* Read before it is acknowledged, so that the window has room for the next train. */
    read_lent();
    carry(&b, B, &a);
}

/* Segments that are written at once. */
static void burst(int segments, int acknowledges_each)
{
    size_t count;
    tcpcore_send(&a, text, (size_t)segments * SEGMENT, &count);
    for (int k = 0; k < segments; k++) {
        if (k > 0 && acknowledges_each)
            carry(&b, B, &a);
        carry(&a, A, &b);
    }
    carry(&b, B, &a);
    if (is_lent)
        read_lent();
    else
        tcpcore_receive(&b, read_bytes, sizeof read_bytes, &count);
}

static void burst_of_bytes(void)
{
    size_t count;
    for (int k = 0; k < 2; k++) {
        tcpcore_send(&a, text, 1, &count);
        carry(&a, A, &b);
    }
    carry(&b, B, &a);
    tcpcore_receive(&b, read_bytes, 2, &count);
}

static int connections(unsigned long count)
{
    unsigned long closed = 0;
    for (unsigned long k = 0; k < count; k++)
        closed += (unsigned long)connection();
    printf("%lu connections were opened and closed\n", closed);
    return closed == count ? 0 : 1;
}

int main(int number, char **words)
{
    struct tcpcore_status status;
    if (number != 3)
        return 2;
    const char *mode = words[1];
    unsigned long count = strtoul(words[2], NULL, 10), each;
    memset(text, 'a', sizeof text);
    if (strcmp(mode, "connection") == 0)
        return connections(count);
    open_both();
    is_lent = strcmp(mode, "lent") == 0 || strcmp(mode, "trains") == 0;
    int is_of_bytes = strcmp(mode, "one_byte") == 0, is_of_trains = strcmp(mode, "trains") == 0;
    int acknowledges_each = strcmp(mode, "each_acknowledged") == 0;
    int segments = strcmp(mode, "sixteen") == 0 ? 16 : 2;
    if (is_of_bytes || is_of_trains)
        each = is_of_bytes ? 2 : sizeof text;
    else
        each = (unsigned long)segments * SEGMENT;
    for (unsigned long k = 0; k < count; k++)
        is_of_bytes ? burst_of_bytes() : is_of_trains ? burst_of_trains() : burst(segments, acknowledges_each);
    tcpcore_status(&a, &status);
    printf("%llu bytes were moved and acknowledged\n", (unsigned long long)status.released);
    return status.released == count * each ? 0 : 1;
}
