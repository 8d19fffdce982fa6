/* The test of a connection's loss recovery by time: each time is worked out by hand from RFC 8985. */
#include "recovery.h"

static void losses_in_the_middle(void)
{
    /* Three segments behind the lost one come: it goes out again a trip and the window after it was sent (RFC 8985, 6.2, step 4). */
    begin(1, TCPCORE_CONGESTION_NONE);
    sends(NOW, 5);
    trip(NOW, 1 << 1);
    rests(NOW + TRIP);
    CHECK(poll_at(), NOW + TRIP + WINDOW);
    rests(NOW + TRIP + WINDOW - 1);
    again(NOW + TRIP + WINDOW, FULL, FULL);
    trip(NOW + TRIP + WINDOW, 0);
    is_over(5 * FULL);
    free_both();
    /* One does: no sooner and no later. */
    begin(1, TCPCORE_CONGESTION_NONE);
    sends(NOW, 3);
    trip(NOW, 1 << 1);
    rests(NOW + TRIP);
    CHECK(poll_at(), NOW + TRIP + WINDOW);
    rests(NOW + TRIP + WINDOW - 1);
    again(NOW + TRIP + WINDOW, FULL, FULL);
    trip(NOW + TRIP + WINDOW, 0);
    is_over(3 * FULL);
    free_both();
    /* Two segments apart are lost: both go out again, and nothing else. */
    begin(1, TCPCORE_CONGESTION_NONE);
    sends(NOW, 8);
    trip(NOW, 1 << 1 | 1 << 4);
    emit(&flying, &a, NOW + TRIP + WINDOW);
    CHECK(flying.count, 2);
    CHECK(flying.of[0].segment.position, 1 + FULL);
    CHECK(flying.of[1].segment.position, 1 + 4 * FULL);
    trip(NOW + TRIP + WINDOW, 0);
    is_over(8 * FULL);
    free_both();
    /* What went out again is lost, too: what was sent behind it tells so a trip and the window later (RFC 8985, 3.1). */
    begin(1, TCPCORE_CONGESTION_NONE);
    sends(NOW, 5);
    trip(NOW, 1 << 1);
    uint64_t now = NOW + TRIP + WINDOW;
    again(now, FULL, FULL);
    flying.count = 0;
    sends(now + 1, 4);
    trip(now + 1, 0);
    rests(now + TRIP + 1);
    CHECK(poll_at(), now + TRIP + WINDOW);
    again(now + TRIP + WINDOW, FULL, FULL);
    trip(now + TRIP + WINDOW, 0);
    is_over(9 * FULL);
    free_both();
}

static void losses_at_the_end(void)
{
    /* A single segment: two trips, and the peer's delay (RFC 8985, 7.2). */
    begin(1, TCPCORE_CONGESTION_NONE);
    sends(NOW, 1);
    trip(NOW, 1);
    CHECK(poll_at(), NOW + 400 * MS);
    rests(NOW + 400 * MS - 1);
    again(NOW + 400 * MS, 0, FULL);
    trip(NOW + 400 * MS, 0);
    is_over(FULL);
    free_both();
    /* The last of three: counted from the acknowledgement of the others. */
    begin(1, TCPCORE_CONGESTION_NONE);
    sends(NOW, 3);
    trip(NOW, 1 << 2);
    CHECK(poll_at(), NOW + TRIP + 400 * MS);
    rests(NOW + TRIP + 400 * MS - 1);
    again(NOW + TRIP + 400 * MS, 2 * FULL, FULL);
    trip(NOW + TRIP + 400 * MS, 0);
    is_over(3 * FULL);
    free_both();
    /* The last two of four: the probe is the last one, whose coming tells that the other is lost. */
    begin(1, TCPCORE_CONGESTION_NONE);
    sends(NOW, 4);
    trip(NOW, 3 << 2);
    CHECK(poll_at(), NOW + TRIP + 200 * MS);
    again(NOW + TRIP + 200 * MS, 3 * FULL, FULL);
    trip(NOW + TRIP + 200 * MS, 0);
    again(NOW + TRIP + 200 * MS + TRIP, 2 * FULL, FULL);
    trip(NOW + TRIP + 200 * MS + TRIP, 0);
    is_over(4 * FULL);
    free_both();
    /* The probe is lost, too: then the retransmission timeout expires, which began with the segment (RFC 6298, 5.1). */
    begin(1, TCPCORE_CONGESTION_NONE);
    sends(NOW, 1);
    trip(NOW, 1);
    again(NOW + 400 * MS, 0, FULL);
    flying.count = 0;
    rests(NOW + 400 * MS);
    uint64_t expires = poll_at();
    CHECK(expires >= NOW + SECOND && expires <= NOW + 400 * MS + SECOND, 1);
    uint32_t timer = 7;
    CHECK(tcpcore_connection_timeout(&a, expires, &timer), TCPCORE_DONE);
    CHECK(timer, TCPCORE_TIMER_RETRANSMIT);
    emit(&flying, &a, expires);
    trip(expires, 0);
    is_over(FULL);
    free_both();
}

static void overtaking_is_no_loss(void)
{
    begin(1, TCPCORE_CONGESTION_NONE);
    /* Each second segment overtakes the one before it. */
    sends(NOW, 10);
    for (size_t at = 0; at < 10; at += 2) {
        comes(at + 1, NOW + TRIP / 2);
        comes(at, NOW + TRIP / 2);
    }
    flying.count = 0;
    answered(NOW + TRIP);
    is_over(10 * FULL);
    /* Many that overtake one don't prove its loss: within the window nothing goes out again. */
    uint64_t now = NOW + SECOND;
    sends(now, 10);
    for (size_t at = 1; at < 10; at++)
        comes(at, now + TRIP / 2);
    answered(now + TRIP);
    comes(0, now + TRIP / 2 + WINDOW - 5 * MS);
    flying.count = 0;
    rests(now + TRIP);
    CHECK(poll_at(), now + TRIP + WINDOW);
    answered(now + TRIP + WINDOW - 5 * MS);
    is_over(20 * FULL);
    free_both();
}

/*
 * Round trips have become shorter, since a queue has drained: what was sent before is waited for by so much longer, for a window at most.
 * Of two segments the first takes `longest`, and a third, which goes out `later`, `shorter`. The second comes just before it would be
 * lost, or is lost.
 */
static void a_queue_has_drained(uint64_t longest, uint64_t later, uint64_t shorter, uint64_t window)
{
    uint64_t due = NOW + shorter + window, came = NOW + later + shorter;
    for (int is_lost = 0; is_lost < 2; is_lost++) {
        begin(1, TCPCORE_CONGESTION_NONE);
        sends(NOW, 2);
        struct flight late = flying;
        comes(0, NOW + longest / 2);
        flying.count = 0;
        sends(NOW + later, 1);
        answered(NOW + longest);
        comes(0, came - shorter / 2);
        flying.count = 0;
        answered(came);
        rests(came);
        CHECK(poll_at(), due);
        rests(due - 1);
        if (is_lost) {
            again(due, FULL, FULL);
            trip(due, 0);
        } else {
            flying = late;
            comes(1, due - TRIP / 2);
            flying.count = 0;
            answered(due - 1);
        }
        is_over(3 * FULL);
        /* A trip later that is forgotten. */
        uint64_t now = NOW + SECOND;
        sends(now, 3);
        trip(now, 1 << 1);
        rests(now + TRIP);
        CHECK(poll_at(), now + TRIP + WINDOW);
        again(now + TRIP + WINDOW, FULL + 3 * FULL, FULL);
        trip(now + TRIP + WINDOW, 0);
        is_over(6 * FULL);
        free_both();
    }
}

static void without_blocks(void)
{
    /* A single segment: as with blocks. */
    begin(0, TCPCORE_CONGESTION_NONE);
    sends(NOW, 1);
    trip(NOW, 1);
    CHECK(poll_at(), NOW + 400 * MS);
    rests(NOW + 400 * MS - 1);
    again(NOW + 400 * MS, 0, FULL);
    trip(NOW + 400 * MS, 0);
    is_over(FULL);
    free_both();
    /* The last two of three: both go out. */
    begin(0, TCPCORE_CONGESTION_NONE);
    sends(NOW, 3);
    trip(NOW, 3 << 1);
    CHECK(poll_at(), NOW + TRIP + 200 * MS);
    two_again(NOW + TRIP + 200 * MS, FULL);
    trip(NOW + TRIP + 200 * MS, 0);
    is_over(3 * FULL);
    free_both();
    /* The last three of four: two go out, and as no more than these is acknowledged the third at once. */
    begin(0, TCPCORE_CONGESTION_NONE);
    sends(NOW, 4);
    trip(NOW, 7 << 1);
    uint64_t now = NOW + TRIP + 200 * MS;
    CHECK(poll_at(), now);
    two_again(now, FULL);
    trip(now, 0);
    again(now + TRIP, 3 * FULL, FULL);
    trip(now + TRIP, 0);
    is_over(4 * FULL);
    free_both();
    /* The first and the last three of six: the probe's answer covers what the peer has kept, and it is the next one that goes on. */
    begin(0, TCPCORE_CONGESTION_NONE);
    sends(NOW, 6);
    trip(NOW, 1 | 1 << 3 | 1 << 4 | 1 << 5);
    two_again(NOW + 200 * MS, 0);
    trip(NOW + 200 * MS, 1 << 1);
    now = NOW + 200 * MS + TRIP;
    rests(now);
    CHECK(poll_at(), now + 200 * MS);
    two_again(now + 200 * MS, 3 * FULL);
    trip(now + 200 * MS, 0);
    again(now + 200 * MS + TRIP, 5 * FULL, FULL);
    trip(now + 200 * MS + TRIP, 0);
    is_over(6 * FULL);
    free_both();
    /* The probe is lost, too: none follows, and the retransmission timeout expires. */
    begin(0, TCPCORE_CONGESTION_NONE);
    sends(NOW, 3);
    trip(NOW, 7);
    two_again(NOW + 200 * MS, 0);
    flying.count = 0;
    rests(NOW + SECOND - 1);
    uint32_t timer = 7;
    uint64_t expires = poll_at();
    CHECK(expires >= NOW + SECOND && expires <= NOW + 200 * MS + SECOND, 1);
    CHECK(tcpcore_connection_timeout(&a, expires, &timer), TCPCORE_DONE);
    CHECK(timer, TCPCORE_TIMER_RETRANSMIT);
    emit(&flying, &a, expires);
    CHECK(flying.count, 3);
    trip(expires, 0);
    is_over(3 * FULL);
    free_both();
}

/* A SYN that was sent before teaches nothing of how long a trip takes. */
static void behind_the_syn(void)
{
    tcpcore_config config = config_of(HERE, 1);
    CHECK(tcpcore_connection_connect(&a, &config, &RULES, THERE, 9, OPENED, blocks[0], sizeof *blocks), TCPCORE_DONE);
    config = config_of(THERE, 1);
    CHECK(tcpcore_connection_listen(&b, &config, &RULES, OPENED, blocks[1], sizeof *blocks), TCPCORE_DONE);
    emit(&flying, &a, OPENED);
    CHECK(flying.count, 1);
    recovers(OPENED + TRIP - 10 * MS);
    trip(OPENED, 0);
    emit(&flying, &a, OPENED + TRIP);
    trip(OPENED + TRIP, 0);
    sends(NOW, 3);
    trip(NOW, 1 << 1);
    rests(NOW + TRIP);
    CHECK(poll_at(), NOW + TRIP + WINDOW);
    again(NOW + TRIP + WINDOW, FULL, FULL);
    trip(NOW + TRIP + WINDOW, 0);
    is_over(3 * FULL);
    free_both();
}

/* Behind text it is too late. */
static void too_late(void)
{
    tcpcore_config config = config_of(HERE, 1);
    CHECK(tcpcore_connection_connect(&a, &config, &RULES, THERE, 9, OPENED, blocks[0], sizeof *blocks), TCPCORE_DONE);
    config = config_of(THERE, 1);
    CHECK(tcpcore_connection_listen(&b, &config, &RULES, OPENED, blocks[1], sizeof *blocks), TCPCORE_DONE);
    emit(&flying, &a, OPENED);
    trip(OPENED, 0);
    emit(&flying, &a, OPENED);
    trip(OPENED, 0);
    sends(NOW, 1);
    tcpcore_connection copy = a;
    CHECK(tcpcore_connection_set_recovery(&a, NOW, memory, sizeof memory), TCPCORE_NO_RULE);
    CHECK(tcpcore_connection_set_recovery(&a, NOW, NULL, 0), TCPCORE_NO_RULE);
    CHECK(memcmp(&copy, &a, sizeof a), 0);
    free_both();
    /* Where it was chosen in time the answer stays another. */
    begin(1, TCPCORE_CONGESTION_NONE);
    sends(NOW, 1);
    CHECK(tcpcore_connection_set_recovery(&a, NOW, text, sizeof text), TCPCORE_IN_USE);
    free_both();
}

/* Where the clock rests, as one with long steps does, a round trip takes no time: what goes out again isn't lost at once. */
static void the_clock_rests(void)
{
    uint64_t now = NOW;
    begin(1, TCPCORE_CONGESTION_NONE);
    for (int turn = 0; turn < 4; turn++) {
        sends(now, 5);
        for (size_t at = 0; at < 5; at++)
            if (at != 1)
                comes(at, now);
        flying.count = 0;
        answered(now);
        while (emit(&flying, &a, now), flying.count == 0) {
            uint32_t timer;
            CHECK(tcpcore_connection_timeout(&a, now, &timer), TCPCORE_NOT_DUE);
            CHECK(poll_at() > now && poll_at() < NOW + SECOND, 1);
            now = poll_at();
        }
        CHECK(flying.count, 1);
        CHECK(flying.of[0].segment.position, 1 + (uint64_t)(5 * turn + 1) * FULL);
        comes(0, now);
        flying.count = 0;
        answered(now);
        is_over((uint64_t)(5 * turn + 5) * FULL);
    }
    free_both();
}

/* An end that was given up sends nothing again, whatever was in flight. */
static void given_up(void)
{
    begin(1, TCPCORE_CONGESTION_NONE);
    sends(NOW, 5);
    trip(NOW, 1 << 1);
    CHECK(tcpcore_connection_abort(&a, NOW + TRIP), TCPCORE_DONE);
    emit(&flying, &a, NOW + TRIP);
    CHECK(flying.count, 1);
    CHECK(poll_at(), TCPCORE_NEVER);
    free_both();
}

static void refusals(void)
{
    static const size_t HUGE_LENGTH = (size_t)PTRDIFF_MAX + 1;
    tcpcore_config config = config_of(HERE, 1);
    CHECK(tcpcore_connection_set_recovery(&a, 0, memory, sizeof memory), TCPCORE_NO_END);
    CHECK(tcpcore_connection_set_recovery(NULL, 0, memory, sizeof memory), TCPCORE_NULL);
    CHECK(tcpcore_connection_connect(&a, &config, &RULES, THERE, 9, 0, blocks[0], sizeof *blocks), TCPCORE_DONE);
    tcpcore_connection copy = a;
    CHECK(tcpcore_connection_set_recovery(&copy, 0, memory, sizeof memory), TCPCORE_COPIED);
    CHECK(tcpcore_connection_set_recovery(&a, 0, NULL, 1), TCPCORE_NULL);
    CHECK(tcpcore_connection_set_recovery(&a, 0, memory, HUGE_LENGTH), TCPCORE_LENGTH);
    CHECK(tcpcore_connection_set_recovery(&a, 0, &a, sizeof a), TCPCORE_OVERLAP);
    CHECK(tcpcore_connection_set_recovery(&a, 0, NULL, 0), TCPCORE_NO_MEMORY);
    CHECK(tcpcore_connection_set_recovery(&a, 0, memory, 100), TCPCORE_NO_MEMORY);
    CHECK(memcmp(&copy, &a, sizeof a), 0);
    recovers(0);
    memset(text, PAINT, sizeof text);
    CHECK(tcpcore_connection_set_recovery(&a, 0, text, sizeof text), TCPCORE_IN_USE);
    CHECK(tcpcore_connection_set_recovery(&a, 0, NULL, 0), TCPCORE_IN_USE);
    for (size_t at = 0; at < sizeof text; at++)
        CHECK(text[at], PAINT);
    CHECK(tcpcore_connection_free(&a), TCPCORE_DONE);
    CHECK(tcpcore_connection_set_recovery(&a, 0, memory, sizeof memory), TCPCORE_NO_END);
}

static void unpainted(const unsigned char *from, const unsigned char *to)
{
    for (; from < to; from++)
        CHECK(*from, PAINT);
}

/* At each alignment so many bytes are enough, one less isn't, and none beside them is touched. */
static void rooms(void)
{
    for (size_t offset = 0; offset < UNIT; offset++) {
        unsigned char *block = memory + UNIT + -(uintptr_t)memory % UNIT + offset;
        size_t least = TCPCORE_RECOVERY_MEMORY - (offset == 0 ? UNIT - 1 : offset - 1);
        tcpcore_config config = config_of(HERE, 1);
        memset(memory, PAINT, sizeof memory);
        CHECK(tcpcore_connection_connect(&a, &config, &RULES, THERE, 9, 0, blocks[0], sizeof *blocks), TCPCORE_DONE);
        CHECK(tcpcore_connection_set_recovery(&a, 0, block, least - 1), TCPCORE_NO_MEMORY);
        CHECK(tcpcore_connection_set_recovery(&a, 0, block, least), TCPCORE_DONE);
        emit(&flying, &a, 0);
        flying.count = 0;
        CHECK(tcpcore_connection_free(&a), TCPCORE_DONE);
        unpainted(memory, block);
        unpainted(block + least, memory + sizeof memory);
    }
}

int main(void)
{
    losses_in_the_middle();
    losses_at_the_end();
    overtaking_is_no_loss();
    a_queue_has_drained(130 * MS, 20 * MS, 115 * MS, WINDOW + 15 * MS);
    a_queue_has_drained(190 * MS, 40 * MS, 155 * MS, 2 * WINDOW);
    without_blocks();
    behind_the_syn();
    too_late();
    the_clock_rests();
    given_up();
    refusals();
    rooms();
    printf("recovery: losses found by time, ends of text probed, and none taken for lost that was overtaken\n");
    return checks > 100 ? 0 : 1;
}
