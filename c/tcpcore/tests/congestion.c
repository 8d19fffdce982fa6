/*
 * The test of a connection's congestion window: each number is worked out by hand from RFC 5681, RFC 6582, RFC 6928 and RFC 9438. Segments have
 * 1,000 bytes of text. Times are microseconds.
 */
#include "check.h"
#include "tcpcore.h"

#include <string.h>

enum { SECOND = 1000000, CAPACITY = 65535, MSS = 1000, DEFAULT_MSS = 536 };

#define GREATEST (UINT64_C(1) << 40)

static const tcpcore_addr HERE = {{10, 0, 0, 1}}, THERE = {{10, 0, 0, 2}};
static const struct tcpcore_connection_rules RULES = TCPCORE_CONNECTION_RULES_DEFAULT;
static unsigned char blocks[2][TCPCORE_CONNECTION_MEMORY(CAPACITY, CAPACITY)], text[CAPACITY];
static tcpcore_connection a = TCPCORE_CONNECTION_INIT, b = TCPCORE_CONNECTION_INIT;

static tcpcore_config config_of(tcpcore_addr addr)
{
    return (tcpcore_config){
        .addr = addr, .port = 9, .mss = MSS, .isn = 1, .send_capacity = CAPACITY, .recv_capacity = CAPACITY, .limit = TCPCORE_LIMIT, .sack = 0};
}

static void open_both(void)
{
    tcpcore_config config = config_of(HERE);
    CHECK(tcpcore_connection_connect(&a, &config, &RULES, THERE, 9, 0, blocks[0], sizeof *blocks), TCPCORE_DONE);
    config = config_of(THERE);
    CHECK(tcpcore_connection_listen(&b, &config, &RULES, 0, blocks[1], sizeof *blocks), TCPCORE_DONE);
}

/* What `a` has in flight, in order. */
static struct {
    unsigned char bytes[64][MSS + 64];
    size_t lengths[64], first, behind;
} flying;

static void free_both(void)
{
    flying.first = flying.behind = 0;
    CHECK(tcpcore_connection_free(&a), TCPCORE_DONE);
    CHECK(tcpcore_connection_free(&b), TCPCORE_DONE);
}

/* What is due of `from` goes out within the caller's window, and comes to `to`, or nowhere where that is NULL; how many segments that is. */
static size_t carry(tcpcore_connection *from, tcpcore_addr src, tcpcore_connection *to, uint64_t now, uint64_t window)
{
    unsigned char bytes[TCPCORE_EMIT_ROOM];
    struct tcpcore_connection_segment segment;
    struct tcpcore_arrive_report report;
    size_t count = 0;
    while (tcpcore_connection_emit(from, now, window, bytes, sizeof bytes, &segment) == TCPCORE_DONE) {
        if (to)
            CHECK(tcpcore_connection_arrive(to, now, src, segment.to, bytes, segment.length, &report), TCPCORE_DONE);
        count++;
    }
    return count;
}

/* All that is due of one side, and then of the other. */
static size_t from_a(uint64_t now) { return carry(&a, HERE, &b, now, UINT64_MAX); }
static size_t from_b(uint64_t now) { return carry(&b, THERE, &a, now, UINT64_MAX); }

/* What is due of `a` goes out. */
static void emit_all(uint64_t now)
{
    unsigned char bytes[TCPCORE_EMIT_ROOM];
    struct tcpcore_connection_segment segment;
    while (tcpcore_connection_emit(&a, now, UINT64_MAX, bytes, sizeof bytes, &segment) == TCPCORE_DONE) {
        memcpy(flying.bytes[flying.behind], bytes, segment.length);
        flying.lengths[flying.behind++] = segment.length;
    }
}

/* So many segments of `a` come, and each is acknowledged by one of its own, behind which `a` sends what it may. */
static void acknowledge_each(uint64_t now, size_t segments)
{
    unsigned char bytes[TCPCORE_EMIT_ROOM], out[MSS];
    struct tcpcore_connection_segment segment;
    struct tcpcore_arrive_report report;
    size_t got;
    emit_all(now);
    for (size_t i = 0; i < segments; i++) {
        CHECK(flying.first < flying.behind, 1);
        CHECK(tcpcore_connection_arrive(&b, now, HERE, THERE, flying.bytes[flying.first], flying.lengths[flying.first], &report), TCPCORE_DONE);
        flying.first++;
        CHECK(tcpcore_connection_receive(&b, now, out, sizeof out, &got), TCPCORE_DONE);
        CHECK(tcpcore_connection_emit(&b, now, UINT64_MAX, bytes, sizeof bytes, &segment), TCPCORE_DONE);
        CHECK(tcpcore_connection_arrive(&a, now, THERE, HERE, bytes, segment.length, &report), TCPCORE_DONE);
        emit_all(now);
    }
}

static struct tcpcore_congestion congestion_of(const tcpcore_connection *connection)
{
    struct tcpcore_congestion found;
    memset(&found, 7, sizeof found);
    CHECK(tcpcore_connection_congestion(connection, &found), TCPCORE_DONE);
    for (size_t i = 0; i < sizeof found.reserved / sizeof *found.reserved; i++)
        CHECK(found.reserved[i], 0);
    return found;
}

static void shows(uint32_t which, uint64_t cwnd, uint64_t ssthresh, uint64_t smss, uint32_t is_recovering)
{
    struct tcpcore_congestion found = congestion_of(&a);
    CHECK(found.congestion, which);
    CHECK(found.cwnd, cwnd);
    CHECK(found.ssthresh, ssthresh);
    CHECK(found.smss, smss);
    CHECK(found.is_recovering, is_recovering);
}

static void send_text(uint64_t now, size_t length)
{
    size_t taken;
    CHECK(tcpcore_connection_send(&a, now, text, length, &taken), TCPCORE_DONE);
    CHECK(taken, length);
}

/* ESTABLISHED at 0, where `a` has chosen this window right behind its making. */
static void establish(uint32_t which)
{
    open_both();
    CHECK(tcpcore_connection_set_congestion(&a, which), TCPCORE_DONE);
    CHECK(from_a(0), 1);
    CHECK(from_b(0), 1);
    CHECK(from_a(0), 1);
}

/* None is chosen by default: all that the peer's window takes goes out at once, as before a window is chosen, and after it was taken back. */
static void none(void)
{
    open_both();
    shows(TCPCORE_CONGESTION_NONE, GREATEST, GREATEST, 0, 0);
    CHECK(tcpcore_connection_set_congestion(&a, TCPCORE_CONGESTION_RENO), TCPCORE_DONE);
    CHECK(tcpcore_connection_set_congestion(&a, TCPCORE_CONGESTION_NONE), TCPCORE_DONE);
    shows(TCPCORE_CONGESTION_NONE, GREATEST, GREATEST, 0, 0);
    CHECK(from_a(0), 1);
    CHECK(from_b(0), 1);
    CHECK(from_a(0), 1);
    send_text(0, 50000);
    CHECK(carry(&a, HERE, NULL, 0, UINT64_MAX), 50);
    shows(TCPCORE_CONGESTION_NONE, GREATEST, GREATEST, 0, 0);
    free_both();
}

/* RFC 6928, 2: min (10 * SMSS, max (2 * SMSS, 14600)), of the default SMSS (RFC 9293, 3.7.1) until the SYNs have agreed on it. Of ten segments
   each acknowledgement lets SMSS more go out (RFC 5681, 3.1, equation 2). The timer shrinks the window to a segment, and ssthresh to half of
   what is in flight, or to 0.7 of it (RFC 9438, 4.6 and 4.8); behind it one segment goes out until it is acknowledged. */
static void windows(uint32_t which, uint64_t ssthresh)
{
    uint32_t timer;
    establish(which);
    shows(which, 10 * MSS, GREATEST, MSS, 0);
    send_text(SECOND, 60000);
    CHECK(carry(&a, HERE, NULL, SECOND, 3000), 3);
    CHECK(carry(&a, HERE, NULL, SECOND, UINT64_MAX), 7);
    shows(which, 10 * MSS, GREATEST, MSS, 0);
    free_both();

    establish(which);
    send_text(SECOND, 60000);
    acknowledge_each(SECOND, 10);
    shows(which, 20 * MSS, GREATEST, MSS, 0);
    CHECK(flying.behind - flying.first, 20);
    CHECK(tcpcore_connection_timeout(&a, 2 * SECOND, &timer), TCPCORE_DONE);
    CHECK(timer, TCPCORE_TIMER_RETRANSMIT);
    shows(which, MSS, ssthresh, MSS, 0);
    CHECK(carry(&a, HERE, NULL, 2 * SECOND, UINT64_MAX), 1);
    free_both();
}

/* RFC 5681, 3.2: the third duplicate begins recovery, with ssthresh and three segments, and the first goes out again; RFC 3042: each of the
   first two lets a segment out beyond cwnd. */
static void recovers(uint32_t which, uint64_t ssthresh)
{
    unsigned char bytes[TCPCORE_EMIT_ROOM];
    struct tcpcore_connection_segment segment;
    struct tcpcore_arrive_report report;
    establish(which);
    send_text(SECOND, 60000);
    /* Then the first of twenty is lost. */
    acknowledge_each(SECOND, 10);
    CHECK(flying.behind - flying.first, 20);
    for (int i = 0; i < 3; i++) {
        CHECK(tcpcore_connection_acknowledge(&b, SECOND), TCPCORE_DONE);
        CHECK(tcpcore_connection_emit(&b, SECOND, UINT64_MAX, bytes, sizeof bytes, &segment), TCPCORE_DONE);
        CHECK(tcpcore_connection_arrive(&a, SECOND, THERE, HERE, bytes, segment.length, &report), TCPCORE_DONE);
        CHECK(report.is_duplicate, 1);
        if (i < 2) {
            CHECK(tcpcore_connection_emit(&a, SECOND, UINT64_MAX, bytes, sizeof bytes, &segment), TCPCORE_DONE);
            CHECK(segment.position, (uint64_t)(30 + i) * MSS + 1);
            CHECK(tcpcore_connection_emit(&a, SECOND, UINT64_MAX, bytes, sizeof bytes, &segment), TCPCORE_NOT_DUE);
        }
    }
    shows(which, ssthresh + 3 * MSS, ssthresh, MSS, 1);
    CHECK(tcpcore_connection_emit(&a, SECOND, UINT64_MAX, bytes, sizeof bytes, &segment), TCPCORE_DONE);
    CHECK(segment.position, 10 * MSS + 1);
    CHECK(segment.count, MSS);
    CHECK(tcpcore_connection_emit(&a, SECOND, UINT64_MAX, bytes, sizeof bytes, &segment), TCPCORE_NOT_DUE);
    free_both();
}

/* RFC 5681, 3.1: a connection whose SYN was lost begins with a segment, also where SMSS is known only behind it. */
static void syn_lost(uint32_t which)
{
    uint32_t timer;
    open_both();
    CHECK(tcpcore_connection_set_congestion(&a, which), TCPCORE_DONE);
    shows(which, 10 * DEFAULT_MSS, GREATEST, DEFAULT_MSS, 0);
    CHECK(carry(&a, HERE, NULL, 0, UINT64_MAX), 1);
    CHECK(tcpcore_connection_timeout(&a, SECOND, &timer), TCPCORE_DONE);
    shows(which, DEFAULT_MSS, GREATEST, DEFAULT_MSS, 0);
    CHECK(from_a(SECOND), 1);
    CHECK(from_b(SECOND), 1);
    shows(which, MSS, GREATEST, MSS, 0);
    CHECK(from_a(SECOND), 1);
    send_text(SECOND, 5000);
    CHECK(carry(&a, HERE, NULL, SECOND, UINT64_MAX), 1);
    free_both();
}

/* RFC 5681, 4.1: after an idle time longer than the timeout the window is the initial one at most. */
static void idle(uint32_t which)
{
    establish(which);
    /* It grows while half of it is in use (RFC 7661, 4.3): behind 17 of 30 segments, where 13 are in flight, it is 27 of them. */
    send_text(SECOND, 30000);
    acknowledge_each(SECOND, 30);
    shows(which, 27 * MSS, GREATEST, MSS, 0);
    send_text(9 * SECOND, 30000);
    CHECK(carry(&a, HERE, NULL, 9 * SECOND, UINT64_MAX), 10);
    shows(which, 10 * MSS, GREATEST, MSS, 0);
    free_both();
}

/* As one, for a device that cuts them: as many as the window has room for. */
static void trains(uint32_t which)
{
    static unsigned char room[TCPCORE_TRAIN_ROOM];
    struct tcpcore_train train;
    establish(which);
    send_text(SECOND, 30000);
    CHECK(tcpcore_connection_emit_train(&a, SECOND, 3500, room, sizeof room, 64, &train), TCPCORE_DONE);
    CHECK(train.segments, 3);
    CHECK(tcpcore_connection_emit_train(&a, SECOND, UINT64_MAX, room, sizeof room, 64, &train), TCPCORE_DONE);
    CHECK(train.segments, 7);
    CHECK(tcpcore_connection_emit_train(&a, SECOND, UINT64_MAX, room, sizeof room, 64, &train), TCPCORE_NOT_DUE);
    free_both();
}

/* It is chosen before text is sent, or a FIN, by its number; what is refused changes nothing. */
static void chosen(void)
{
    open_both();
    CHECK(tcpcore_connection_set_congestion(&a, 3), TCPCORE_BAD_RULES);
    CHECK(tcpcore_connection_set_congestion(&a, UINT32_MAX), TCPCORE_BAD_RULES);
    shows(TCPCORE_CONGESTION_NONE, GREATEST, GREATEST, 0, 0);
    CHECK(from_a(0), 1);
    CHECK(from_b(0), 1);
    CHECK(from_a(0), 1);
    CHECK(tcpcore_connection_set_congestion(&a, TCPCORE_CONGESTION_RENO), TCPCORE_DONE);
    shows(TCPCORE_CONGESTION_RENO, 10 * MSS, GREATEST, MSS, 0);
    CHECK(tcpcore_connection_set_congestion(&b, TCPCORE_CONGESTION_CUBIC), TCPCORE_DONE);
    send_text(SECOND, 1);
    CHECK(tcpcore_connection_set_congestion(&a, TCPCORE_CONGESTION_CUBIC), TCPCORE_DONE);
    CHECK(from_a(SECOND), 1);
    CHECK(tcpcore_connection_set_congestion(&a, TCPCORE_CONGESTION_NONE), TCPCORE_NO_RULE);
    CHECK(tcpcore_connection_set_congestion(&a, 3), TCPCORE_BAD_RULES);
    shows(TCPCORE_CONGESTION_CUBIC, 10 * MSS, GREATEST, MSS, 0);
    CHECK(tcpcore_connection_close(&b, SECOND), TCPCORE_DONE);
    CHECK(from_b(SECOND), 1);
    CHECK(tcpcore_connection_set_congestion(&b, TCPCORE_CONGESTION_NONE), TCPCORE_NO_RULE);
    CHECK(congestion_of(&b).congestion, TCPCORE_CONGESTION_CUBIC);
    free_both();
}

int main(void)
{
    for (size_t i = 0; i < sizeof text; i++)
        text[i] = (unsigned char)(i * 7);
    none();
    chosen();
    windows(TCPCORE_CONGESTION_RENO, 10 * MSS);
    windows(TCPCORE_CONGESTION_CUBIC, 14 * MSS);
    recovers(TCPCORE_CONGESTION_RENO, 10 * MSS);
    recovers(TCPCORE_CONGESTION_CUBIC, 14 * MSS);
    for (uint32_t which = TCPCORE_CONGESTION_RENO; which <= TCPCORE_CONGESTION_CUBIC; which++) {
        syn_lost(which);
        idle(which);
        trains(which);
    }
    printf("congestion: the windows of RFC 5681 and RFC 9438\n");
    return checks > 100 ? 0 : 1;
}
