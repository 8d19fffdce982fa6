/*
 * The test of pacing (RFC 9002, 7.7): in which portions new text goes out, and when. A trip takes 100 ms, which SRTT is, segments have
 * 1,000 bytes of text, and the first window is ten of them (RFC 6928, 2). The rate is N * cwnd / SRTT; a portion is as many whole segments
 * as go out in a millisecond at that rate, or ten where that is more, and lasts for as long as it takes then. Each time and size is worked
 * out by hand.
 */
#include "recovery.h"

/* A portion, and how long it takes in slow start where cwnd is 14,000: 10,000 / 280 ms, whole microseconds up. */
enum { PORTION = 10, SLOW_START = 35715 };

/* When ten segments that went out at NOW have all been acknowledged. */
static const uint64_t LATER = NOW + TRIP;

static void paces(uint32_t is_paced) { CHECK(tcpcore_connection_set_pacing(&a, is_paced), TCPCORE_DONE); }

static void begins(uint32_t congestion)
{
    connects(1);
    CHECK(tcpcore_connection_set_congestion(&a, congestion), TCPCORE_DONE);
    paces(1);
    meets(1);
}

static void gives(uint64_t now, size_t segments)
{
    size_t taken;
    CHECK(tcpcore_connection_send(&a, now, text, segments * FULL, &taken), TCPCORE_DONE);
    CHECK(taken, segments * FULL);
}

/* At `now` so many full segments go out, from segment `at` of the stream on. */
static void goes_out(uint64_t now, size_t segments, size_t at)
{
    size_t before = flying.count;
    emit(&flying, &a, now);
    CHECK(flying.count - before, segments);
    for (size_t i = 0; i < segments; i++) {
        CHECK(flying.of[before + i].segment.position, 1 + (at + i) * FULL);
        CHECK(flying.of[before + i].segment.count, FULL);
    }
}

/* The next portion begins at `now`, in which so many segments go out: nothing goes out before, and no timer expires. */
static void portion(uint64_t now, size_t segments, size_t at)
{
    uint32_t timer;
    CHECK(poll_at(), now);
    CHECK(tcpcore_connection_timeout(&a, now - 1, &timer), TCPCORE_NOT_DUE);
    goes_out(now - 1, 0, at);
    CHECK(poll_at(), now);
    CHECK(tcpcore_connection_timeout(&a, now, &timer), TCPCORE_NOT_DUE);
    goes_out(now, segments, at);
}

static struct tcpcore_congestion congestion(void)
{
    struct tcpcore_congestion found;
    CHECK(tcpcore_connection_congestion(&a, &found), TCPCORE_DONE);
    return found;
}

/* The first window goes out at NOW, and at once, and is acknowledged. At LATER cwnd is 14,000: an acknowledgement adds a segment while half
   of the window is in flight (RFC 5681, 3.1; RFC 7661, 4.3), 10 of 10, 9 of 11, 8 of 12 and 7 of 13, but not 6 of 14. */
static void grows(uint32_t rule)
{
    begins(rule);
    gives(NOW, 10);
    goes_out(NOW, 10, 0);
    /* No portion is waited for: the retransmission timer runs, for the second that it takes at least (RFC 6298, 2.4 and 5.1). */
    CHECK(poll_at(), NOW + SECOND);
    trip(NOW, 0);
    CHECK(congestion().cwnd, 14 * FULL);
}

/* cwnd 14,000 in slow start: 2 * 14,000 bytes in 100 ms are 280 bytes a millisecond: less than a segment, so that a portion is ten. So a
   window has gone out in half a round trip; then it holds what is left, and no portion is waited for. */
static void slow_start(uint32_t rule)
{
    grows(rule);
    gives(LATER, 16);
    goes_out(LATER, PORTION, 10);
    portion(LATER + SLOW_START, 4, 20);
    goes_out(LATER + 2 * SLOW_START, 0, 24);
    CHECK(poll_at(), LATER + SECOND);
    CHECK(congestion().cwnd, 14 * FULL);
    free_both();
    /* Unpaced all of it goes out at once, before and behind. */
    grows(rule);
    paces(0);
    gives(LATER, 1);
    goes_out(LATER, 1, 10);
    paces(1);
    gives(LATER, 11);
    goes_out(LATER, PORTION, 11);
    portion(LATER + SLOW_START, 1, 21);
    paces(0);
    paces(1);
    gives(LATER + SLOW_START, 2);
    goes_out(LATER + SLOW_START, 2, 22);
    free_both();
    grows(rule);
    gives(LATER, 13);
    goes_out(LATER, PORTION, 10);
    goes_out(LATER + MS, 0, 20);
    paces(0);
    goes_out(LATER + MS, 3, 20);
    free_both();
}

/* RFC 5681, 3.1: 20 segments are in flight when the timer expires. So ssthresh is 10,000, which cwnd reaches over 1,000, 2,000, 4,000 and
   8,000, and 11,000 a trip later. Then 1.25 * 11,000 bytes in 100 ms are 137.5 bytes a millisecond, and a portion takes 10,000 / 137.5 ms,
   whole microseconds up. */
static void avoidance(void)
{
    uint64_t now = NOW;
    size_t at = 0;
    uint32_t timer;
    begins(TCPCORE_CONGESTION_RENO);
    paces(0);
    /* Full windows, which grow until there is room for 20. */
    for (; congestion().cwnd < 20 * FULL; now += TRIP) {
        size_t window = (size_t)congestion().cwnd / FULL;
        gives(now, window);
        goes_out(now, window, at);
        trip(now, 0);
        at += window;
    }
    gives(now, 20);
    goes_out(now, 20, at);
    /* All of them are lost. What goes out again doesn't wait, though it is paced now. */
    flying.count = 0;
    now += SECOND;
    paces(1);
    CHECK(tcpcore_connection_timeout(&a, now, &timer), TCPCORE_DONE);
    CHECK(timer, TCPCORE_TIMER_RETRANSMIT);
    CHECK(congestion().ssthresh, 10 * FULL);
    CHECK(congestion().cwnd, FULL);
    for (size_t window = 1; window < 16; at += window, window *= 2) {
        goes_out(now, window, at);
        trip(now, 0);
        now += TRIP;
    }
    CHECK(congestion().cwnd, 10 * FULL);
    CHECK(congestion().ssthresh, 10 * FULL);
    /* Five of the 20 are left, which go out at once, and new text behind them. */
    gives(now, 5);
    goes_out(now, 10, at);
    trip(now, 0);
    now += TRIP;
    CHECK(congestion().cwnd, 11 * FULL);
    gives(now, 12);
    goes_out(now, PORTION, at + 10);
    portion(now + 72728, 1, at + 20);
    free_both();
}

/* What is sent again doesn't wait, and takes nothing away: the next portion begins as it would. */
static void resends(void)
{
    grows(TCPCORE_CONGESTION_CUBIC);
    gives(LATER, 14);
    goes_out(LATER, PORTION, 10);
    CHECK(tcpcore_connection_resend_first(&a, LATER + MS), TCPCORE_DONE);
    goes_out(LATER + MS, 1, 10);
    CHECK(tcpcore_connection_resend(&a, LATER + 2 * MS, 1 + 11 * FULL, 1 + 12 * FULL), TCPCORE_DONE);
    goes_out(LATER + 2 * MS, 1, 11);
    portion(LATER + SLOW_START, 4, 20);
    free_both();
}

/* Where nothing is in flight the first segment goes out, though the portion is used up; and idle time earns one portion and no more. */
static void alone(void)
{
    grows(TCPCORE_CONGESTION_RENO);
    gives(LATER, 13);
    goes_out(LATER, PORTION, 10);
    for (size_t i = 0; i < PORTION; i++)
        comes(i, LATER + MS);
    flying.count = 0;
    answered(LATER + MS);
    goes_out(LATER + MS, 1, 20);
    portion(LATER + SLOW_START, 2, 21);
    trip(LATER + SLOW_START, 0);
    /* No text waits, so that there is no time to wait for. */
    CHECK(poll_at(), TCPCORE_NEVER);
    /* Not so long that the window begins anew, with what it was at first (RFC 5681, 4.1). */
    uint64_t later = LATER + SECOND / 2;
    gives(later, 13);
    goes_out(later, PORTION, 23);
    CHECK(poll_at() > later && poll_at() <= later + SLOW_START, 1);
    free_both();
}

/* Without a congestion window there is no rate that would hold anything; nor where no trip was measured, as behind a SYN that was sent
   again (RFC 6298, 3). */
static void unpaced(void)
{
    unsigned char lost[TCPCORE_EMIT_ROOM];
    struct tcpcore_connection_segment segment;
    uint32_t timer;
    begins(TCPCORE_CONGESTION_NONE);
    gives(NOW, 20);
    goes_out(NOW, 20, 0);
    free_both();
    connects(1);
    paces(1);
    CHECK(tcpcore_connection_emit(&a, OPENED - SECOND, UINT64_MAX, lost, sizeof lost, &segment), TCPCORE_DONE);
    CHECK(tcpcore_connection_timeout(&a, poll_at(), &timer), TCPCORE_DONE);
    CHECK(timer, TCPCORE_TIMER_RETRANSMIT);
    meets(1);
    CHECK(tcpcore_connection_set_congestion(&a, TCPCORE_CONGESTION_RENO), TCPCORE_DONE);
    gives(NOW, 10);
    goes_out(NOW, 10, 0);
    /* The first trip that is measured has what follows paced. */
    trip(NOW, 0);
    CHECK(congestion().cwnd, 14 * FULL);
    gives(LATER, 14);
    goes_out(LATER, PORTION, 10);
    portion(LATER + SLOW_START, 4, 20);
    free_both();
}

/* The peer takes 752 bytes more than a portion. They are the next segment, which waits for the next portion. */
static void cut_by_the_peer(void)
{
    enum { REST = 752 };
    connects(1);
    CHECK(tcpcore_connection_set_congestion(&a, TCPCORE_CONGESTION_RENO), TCPCORE_DONE);
    paces(1);
    meets_within(1, PORTION * FULL + REST);
    gives(NOW, 10);
    goes_out(NOW, 10, 0);
    trip(NOW, 0);
    CHECK(congestion().cwnd, 14 * FULL);
    CHECK(status_of(&a).snd_wnd, PORTION * FULL + REST);
    gives(LATER, 12);
    goes_out(LATER, PORTION, 10);
    CHECK(poll_at(), LATER + SLOW_START);
    goes_out(LATER + SLOW_START - 1, 0, 20);
    emit(&flying, &a, LATER + SLOW_START);
    CHECK(flying.count, PORTION + 1);
    CHECK(flying.of[PORTION].segment.position, 1 + 20 * FULL);
    CHECK(flying.of[PORTION].segment.count, REST);
    /* The peer's window is full. */
    CHECK(poll_at(), LATER + SECOND);
    free_both();
}

/* A FIN that no text waits before doesn't wait for a portion. */
static void a_fin(void)
{
    grows(TCPCORE_CONGESTION_CUBIC);
    gives(LATER, PORTION);
    goes_out(LATER, PORTION, 10);
    CHECK(tcpcore_connection_close(&a, LATER), TCPCORE_DONE);
    emit(&flying, &a, LATER);
    CHECK(flying.count, PORTION + 1);
    CHECK(flying.of[PORTION].segment.position, 1 + (10 + PORTION) * FULL);
    CHECK(flying.of[PORTION].segment.count, 1);
    free_both();
    /* Behind text that waits it waits, too. */
    grows(TCPCORE_CONGESTION_CUBIC);
    gives(LATER, PORTION + 2);
    CHECK(tcpcore_connection_close(&a, LATER), TCPCORE_DONE);
    goes_out(LATER, PORTION, 10);
    CHECK(poll_at(), LATER + SLOW_START);
    emit(&flying, &a, LATER + SLOW_START);
    CHECK(flying.count, PORTION + 3);
    CHECK(flying.of[PORTION + 2].segment.position, 1 + (10 + PORTION + 2) * FULL);
    CHECK(flying.of[PORTION + 2].segment.count, 1);
    free_both();
}

/* As one for a device that cuts it: a portion, and no more. */
static void as_a_train(void)
{
    static unsigned char whole[TCPCORE_TRAIN_ROOM];
    struct tcpcore_train train;
    grows(TCPCORE_CONGESTION_CUBIC);
    gives(LATER, 14);
    for (size_t i = 0; i < 2; i++) {
        uint64_t now = LATER + i * SLOW_START;
        size_t segments = i == 0 ? PORTION : 4;
        if (i > 0)
            CHECK(poll_at(), now);
        CHECK(tcpcore_connection_emit_train(&a, now, UINT64_MAX, whole, sizeof whole, 19, &train), TCPCORE_DONE);
        CHECK(train.segments, segments);
        CHECK(train.whole.position, 1 + (10 + i * PORTION) * FULL);
        CHECK(train.whole.count, segments * FULL);
        CHECK(tcpcore_connection_emit_train(&a, now, UINT64_MAX, whole, sizeof whole, 19, &train), TCPCORE_NOT_DUE);
    }
    free_both();
}

int main(void)
{
    slow_start(TCPCORE_CONGESTION_RENO);
    slow_start(TCPCORE_CONGESTION_CUBIC);
    avoidance();
    resends();
    alone();
    unpaced();
    cut_by_the_peer();
    a_fin();
    as_a_train();
    printf("paced: new text goes out in portions, each at its time\n");
    return checks > 100 ? 0 : 1;
}
