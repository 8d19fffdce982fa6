/*
 * The test of a connection's keep-alives (RFC 9293, 3.8.4): when a silent peer is asked, by which bytes, what it answers, and when it is
 * given up. Each time and number is worked out by hand. Times are microseconds.
 */
#include "connection.h"
#include "device.h"

enum { SYN = 2, RST = 4, ACK = 16, HEADER = 20, MOST = 9, ROUNDS = 1000 };

/* Two hours, 75 s, nine times. */
static const uint64_t NOW = UINT64_C(5) * SECOND, IDLE = UINT64_C(7200) * SECOND, INTERVAL = UINT64_C(75) * SECOND;
static const struct tcpcore_keep_alive USUAL = TCPCORE_KEEP_ALIVE_DEFAULT;
static unsigned char asked[TCPCORE_EMIT_ROOM], answer[TCPCORE_EMIT_ROOM], recoveries[2][TCPCORE_RECOVERY_MEMORY];

static void keeps(tcpcore_connection *connection, uint64_t now, const struct tcpcore_keep_alive *rules)
{
    CHECK(tcpcore_connection_set_keep_alive(connection, now, rules), TCPCORE_DONE);
}

/* No timer expires at `now`, and nothing goes out. */
static void rests(tcpcore_connection *connection, uint64_t now)
{
    unsigned char bytes[TCPCORE_EMIT_ROOM];
    struct tcpcore_connection_segment segment;
    uint32_t timer;
    CHECK(tcpcore_connection_timeout(connection, now, &timer), TCPCORE_NOT_DUE);
    CHECK(tcpcore_connection_emit(connection, now, UINT64_MAX, bytes, sizeof bytes, &segment), TCPCORE_NOT_DUE);
}

static uint32_t get32(const unsigned char *at) { return get16(at) << 16 | get16(at + 2); }

/* <SEQ=SND.NXT-1><ACK=RCV.NXT><CTL=ACK> with the window, neither options nor text, and a checksum that is right. */
static void is_keep_alive(const unsigned char *bytes, uint32_t seq, uint32_t ack, uint32_t window)
{
    CHECK(get16(bytes), 9);
    CHECK(get16(bytes + 2), 9);
    CHECK(get32(bytes + 4), seq);
    CHECK(get32(bytes + 8), ack);
    CHECK(bytes[12], HEADER / 4 << 4);
    CHECK(bytes[13], ACK);
    CHECK(get16(bytes + 14), window);
    CHECK(get16(bytes + 18), 0);
    CHECK(summed(pseudo(HERE, THERE, HEADER), bytes, HEADER), 0xffff);
}

/* At `now`, and not before, a keep-alive of a's goes out, and nothing else, which begins at this position. */
static void asks(uint64_t now, uint64_t position)
{
    struct tcpcore_connection_segment segment;
    uint32_t timer;
    CHECK(poll_at(&a), now);
    rests(&a, now - 1);
    CHECK(poll_at(&a), now);
    CHECK(tcpcore_connection_timeout(&a, now, &timer), TCPCORE_NOT_DUE);
    CHECK(tcpcore_connection_emit(&a, now, UINT64_MAX, asked, sizeof asked, &segment), TCPCORE_DONE);
    CHECK(segment.length, HEADER);
    CHECK(segment.position, position);
    CHECK(segment.count, 0);
    CHECK(memcmp(&segment.to, &THERE, sizeof THERE), 0);
    rests(&a, now);
}

/* B passes over what asks it, and answers by one acknowledgement, which a takes. */
static void is_answered(uint64_t now)
{
    struct tcpcore_connection_segment segment;
    struct tcpcore_arrive_report report;
    CHECK(tcpcore_connection_arrive(&b, now, HERE, THERE, asked, HEADER, &report), TCPCORE_DROPPED);
    CHECK(report.rule, TCPCORE_RULE_UNACCEPTABLE);
    CHECK(tcpcore_connection_emit(&b, now, UINT64_MAX, answer, sizeof answer, &segment), TCPCORE_DONE);
    CHECK(segment.length, HEADER);
    rests(&b, now);
    CHECK(tcpcore_connection_arrive(&a, now, THERE, HERE, answer, HEADER, &report), TCPCORE_DONE);
}

static void sends(tcpcore_connection *connection, uint64_t now, size_t length)
{
    static const unsigned char text[CAPACITY];
    size_t taken;
    CHECK(tcpcore_connection_send(connection, now, text, length, &taken), TCPCORE_DONE);
    CHECK(taken, length);
}

/* The connection is given up at `now`, and not before: its reset goes out. */
static void is_given_up(uint64_t now)
{
    struct tcpcore_connection_segment segment;
    struct tcpcore_arrive_report report;
    uint32_t timer;
    CHECK(poll_at(&a), now);
    rests(&a, now - 1);
    CHECK(status_of(&a).phase, TCPCORE_PHASE_ESTABLISHED);
    CHECK(tcpcore_connection_timeout(&a, now, &timer), TCPCORE_DONE);
    CHECK(timer, TCPCORE_TIMER_USER);
    CHECK(status_of(&a).phase, TCPCORE_PHASE_CLOSED);
    CHECK(status_of(&a).ending, TCPCORE_ENDING_ABORTED);
    CHECK(tcpcore_connection_emit(&a, now, UINT64_MAX, asked, sizeof asked, &segment), TCPCORE_DONE);
    CHECK(asked[13] & RST, RST);
    rests(&a, now);
    CHECK(poll_at(&a), TCPCORE_NEVER);
    CHECK(tcpcore_connection_arrive(&b, now, HERE, THERE, asked, (size_t)segment.length, &report), TCPCORE_DONE);
    CHECK(status_of(&b).ending, TCPCORE_ENDING_RESET);
}

/* Nobody is asked who doesn't want it (MUST-25), and nobody who turns it off, or takes forever. */
static void off(void)
{
    static const struct tcpcore_keep_alive NONE = {0, 0, 0, {0}}, NO_IDLE = {0, 75 * SECOND, MOST, {0}},
                                           FOREVER = {TCPCORE_NEVER, TCPCORE_NEVER, MOST, {0}};
    const struct tcpcore_keep_alive *const OFF[] = {&NONE, &NO_IDLE, &FOREVER};
    establish(0);
    CHECK(poll_at(&a), TCPCORE_NEVER);
    rests(&a, 1000 * IDLE);
    for (size_t i = 0; i < sizeof OFF / sizeof *OFF; i++) {
        keeps(&a, 1000 * IDLE, &USUAL);
        CHECK(poll_at(&a), 1001 * IDLE);
        keeps(&a, 1000 * IDLE, OFF[i]);
        CHECK(poll_at(&a), TCPCORE_NEVER);
        rests(&a, 2000 * IDLE);
    }
    free_both();
}

/* A silent peer is asked after `idle` (MUST-26, MUST-28, SHLD-12); it answers, is heard so, and is asked again after as long. */
static void asks_the_silent(int with_all)
{
    static const struct tcpcore_policy POLICY = TCPCORE_POLICY_DEFAULT;
    uint64_t now = NOW;
    establish(0);
    if (with_all) {
        tcpcore_connection *const ends[] = {&a, &b};
        for (int i = 0; i < 2; i++) {
            CHECK(tcpcore_connection_set_congestion(ends[i], TCPCORE_CONGESTION_CUBIC), TCPCORE_DONE);
            CHECK(tcpcore_connection_set_recovery(ends[i], 0, recoveries[i], sizeof *recoveries), TCPCORE_DONE);
            CHECK(tcpcore_connection_set_policy(ends[i], &POLICY), TCPCORE_DONE);
        }
    }
    keeps(&a, now, &USUAL);
    for (uint32_t sent = 0; sent < 30; sent += 10) {
        now += IDLE;
        asks(now, sent);
        is_keep_alive(asked, 1 + sent, 2, CAPACITY);
        is_answered(now);
        CHECK(poll_at(&a), now + IDLE);
        /* Nothing has changed but that; and what is sent goes on from there. */
        CHECK(status_of(&a).snd_nxt, 1 + sent);
        sends(&a, now, 10);
        CHECK(carry(&a, HERE, &b, now), 1);
        CHECK(carry(&b, THERE, &a, now + (with_all ? 40000 : 0)), 1);
        now += with_all ? 40000 : 0;
        CHECK(status_of(&b).unread, sent + 10);
    }
    free_both();
}

/* One that isn't answered is no death of the connection (MUST-29); as many as the rules have are, each an interval behind the last. */
static void gives_up_the_dead(void)
{
    establish(0);
    keeps(&a, NOW, &USUAL);
    for (unsigned i = 0; i < MOST; i++) {
        asks(NOW + IDLE + i * INTERVAL, 0);
        CHECK(status_of(&a).phase, TCPCORE_PHASE_ESTABLISHED);
    }
    is_given_up(NOW + IDLE + MOST * INTERVAL);
    free_both();
}

/* An answer counts for all that were unanswered: from then on it is as at first. */
static void is_heard_again(void)
{
    uint64_t now = NOW + IDLE;
    establish(0);
    keeps(&a, NOW, &USUAL);
    for (unsigned i = 0; i + 1 < MOST; i++, now += INTERVAL)
        asks(now, 0);
    asks(now, 0);
    is_answered(now + SECOND);
    now += SECOND + IDLE;
    for (unsigned i = 0; i < MOST; i++, now += INTERVAL)
        asks(now, 0);
    is_given_up(now);
    free_both();
}

/* The peer is heard by what is taken, and by nothing else: a damaged segment, one of somebody else, and an unacceptable one (RFC 9293,
   3.10.7.4, first) leave it silent. */
static void is_heard_by_what_is_taken(void)
{
    struct tcpcore_arrive_report report;
    establish(0);
    keeps(&a, NOW, &USUAL);
    asks(NOW + IDLE, 0);
    is_answered(NOW + IDLE);
    uint64_t now = NOW + IDLE + SECOND;
    answer[HEADER - 1] ^= 1;
    CHECK(tcpcore_connection_arrive(&a, now, THERE, HERE, answer, HEADER, &report), TCPCORE_BAD_CHECKSUM);
    answer[HEADER - 1] ^= 1;
    CHECK(tcpcore_connection_arrive_vouched(&a, now, NOWHERE, HERE, answer, HEADER, &report), TCPCORE_NOT_MINE);
    CHECK(get32(answer + 4), 2);
    /* What asks this end, as a keep-alive of the peer's, is answered, and says no more. */
    answer[7] = 1;
    CHECK(tcpcore_connection_arrive_vouched(&a, now, THERE, HERE, answer, HEADER, &report), TCPCORE_DROPPED);
    CHECK(report.rule, TCPCORE_RULE_UNACCEPTABLE);
    CHECK(carry(&a, HERE, &b, now), 1);
    CHECK(poll_at(&a), NOW + 2 * IDLE);
    answer[7] = 2;
    CHECK(tcpcore_connection_arrive_vouched(&a, now, THERE, HERE, answer, HEADER, &report), TCPCORE_DONE);
    CHECK(poll_at(&a), now + IDLE);
    /* Text is heard, too. */
    sends(&b, now + SECOND, 1);
    CHECK(carry(&b, THERE, &a, now + SECOND), 1);
    CHECK(carry(&a, HERE, &b, now + SECOND), 1);
    asks(now + SECOND + IDLE, 0);
    is_keep_alive(asked, 1, 3, CAPACITY - 1);
    free_both();
}

/* What is in flight asks already, and so does what waits for a window: the retransmission timer runs, and nobody is asked (3.8.4). */
static void not_while_text_asks(void)
{
    unsigned char bytes[TCPCORE_EMIT_ROOM];
    struct tcpcore_connection_segment segment;
    uint32_t timer;
    establish(0);
    keeps(&a, NOW, &USUAL);
    /* Text that comes to the time of asking goes in its place. */
    sends(&a, NOW + IDLE, 4);
    CHECK(tcpcore_connection_timeout(&a, NOW + IDLE, &timer), TCPCORE_NOT_DUE);
    CHECK(tcpcore_connection_emit(&a, NOW + IDLE, UINT64_MAX, bytes, sizeof bytes, &segment), TCPCORE_DONE);
    CHECK(segment.position, 1);
    CHECK(segment.count, 4);
    rests(&a, NOW + IDLE);
    /* It is lost, and its timer expires a second later; what then goes out is it again. */
    CHECK(poll_at(&a), NOW + IDLE + SECOND);
    CHECK(tcpcore_connection_timeout(&a, NOW + IDLE + SECOND, &timer), TCPCORE_DONE);
    CHECK(timer, TCPCORE_TIMER_RETRANSMIT);
    CHECK(carry(&a, HERE, &b, NOW + IDLE + SECOND), 1);
    CHECK(carry(&b, THERE, &a, NOW + IDLE + SECOND), 1);
    CHECK(poll_at(&a), NOW + 2 * IDLE + SECOND);
    CHECK(status_of(&b).unread, 4);
    /* At a window of 0 what waits is probed for, and no peer is asked. */
    uint64_t now = NOW + 2 * IDLE;
    sends(&a, now, CAPACITY - 4);
    CHECK(carry(&a, HERE, &b, now), 1);
    CHECK(carry(&b, THERE, &a, now), 1);
    CHECK(status_of(&a).snd_wnd, 0);
    CHECK(poll_at(&a), now + IDLE);
    sends(&a, now, 1);
    CHECK(poll_at(&a), now + SECOND);
    free_both();
}

/* In the handshake the SYN asks, and behind a FIN nobody is asked; in CLOSE-WAIT, where this side may still send, the peer is. */
static void phases(void)
{
    struct tcpcore_keep_alive rules = {2 * SECOND, 2 * SECOND, 3, {0}};
    struct tcpcore_connection_segment segment;
    struct tcpcore_arrive_report report;
    uint32_t timer;
    open_both();
    keeps(&a, 0, &rules);
    keeps(&b, 0, &rules);
    CHECK(poll_at(&b), TCPCORE_NEVER);
    CHECK(tcpcore_connection_emit(&a, 0, UINT64_MAX, asked, sizeof asked, &segment), TCPCORE_DONE);
    CHECK(poll_at(&a), SECOND);
    CHECK(tcpcore_connection_timeout(&a, SECOND, &timer), TCPCORE_DONE);
    CHECK(carry(&a, HERE, &b, SECOND), 1);
    CHECK(carry(&b, THERE, &a, 2 * SECOND), 1);
    CHECK(carry(&a, HERE, &b, 3 * SECOND), 1);
    /* Both were heard in the handshake. */
    CHECK(poll_at(&a), 4 * SECOND);
    CHECK(poll_at(&b), 5 * SECOND);
    CHECK(tcpcore_connection_close(&a, 3 * SECOND), TCPCORE_DONE);
    CHECK(carry(&a, HERE, &b, 3 * SECOND), 1);
    CHECK(carry(&b, THERE, &a, 3 * SECOND), 1);
    CHECK(status_of(&a).phase, TCPCORE_PHASE_FIN_WAIT_2);
    CHECK(poll_at(&a), TCPCORE_NEVER);
    CHECK(status_of(&b).phase, TCPCORE_PHASE_CLOSE_WAIT);
    CHECK(poll_at(&b), 5 * SECOND);
    CHECK(tcpcore_connection_timeout(&b, 5 * SECOND, &timer), TCPCORE_NOT_DUE);
    CHECK(tcpcore_connection_emit(&b, 5 * SECOND, UINT64_MAX, asked, sizeof asked, &segment), TCPCORE_DONE);
    CHECK(get32(asked + 4), 1);
    CHECK(get32(asked + 8), 3);
    CHECK(tcpcore_connection_arrive(&a, 5 * SECOND, THERE, HERE, asked, (size_t)segment.length, &report), TCPCORE_DROPPED);
    CHECK(carry(&a, HERE, &b, 5 * SECOND), 1);
    CHECK(poll_at(&b), 7 * SECOND);
    free_both();
}

/* No time counts as less than a second, and no number as less than two; and rules that are chosen anew begin anew. */
static void rules(void)
{
    struct tcpcore_keep_alive least = {1, 0, 0, {0}};
    establish(0);
    keeps(&a, NOW, &USUAL);
    asks(NOW + IDLE, 0);
    asks(NOW + IDLE + INTERVAL, 0);
    uint64_t now = NOW + IDLE + INTERVAL + SECOND;
    keeps(&a, now, &USUAL);
    CHECK(poll_at(&a), now + IDLE);
    keeps(&a, now, &least);
    asks(now + SECOND, 0);
    asks(now + 2 * SECOND, 0);
    is_given_up(now + 3 * SECOND);
    free_both();
}

/* Written for a device that sums it: what that makes of it is the keep-alive that is written whole, and is answered. */
static void as_a_train(void)
{
    static unsigned char whole[TCPCORE_TRAIN_ROOM];
    struct tcpcore_train train;
    uint32_t timer;
    establish(0);
    sends(&a, NOW, 7);
    CHECK(carry(&a, HERE, &b, NOW), 1);
    CHECK(carry(&b, THERE, &a, NOW), 1);
    keeps(&a, NOW, &USUAL);
    for (size_t most = 1; most <= 9; most += 8) {
        uint64_t now = poll_at(&a);
        CHECK(now, most == 1 ? NOW + IDLE : NOW + 2 * IDLE);
        CHECK(tcpcore_connection_emit_train(&a, now - 1, UINT64_MAX, whole, sizeof whole, most, &train), TCPCORE_NOT_DUE);
        CHECK(tcpcore_connection_timeout(&a, now, &timer), TCPCORE_NOT_DUE);
        CHECK(tcpcore_connection_emit_train(&a, now, UINT64_MAX, whole, sizeof whole, most, &train), TCPCORE_DONE);
        CHECK(train.whole.kind, TCPCORE_KIND_ACKNOWLEDGEMENT);
        CHECK(train.whole.length, HEADER);
        CHECK(train.whole.position, 7);
        CHECK(train.whole.count, 0);
        CHECK(memcmp(&train.whole.to, &THERE, sizeof THERE), 0);
        CHECK(train.header, HEADER);
        CHECK(train.each, 0);
        CHECK(train.segments, 1);
        CHECK(get16(whole + 16), pseudo(HERE, THERE, HEADER));
        CHECK(cut_piece(whole, HEADER, 0, 0, HERE, THERE, asked), HEADER);
        is_keep_alive(asked, 8, 2, CAPACITY);
        CHECK(tcpcore_connection_emit_train(&a, now, UINT64_MAX, whole, sizeof whole, most, &train), TCPCORE_NOT_DUE);
        is_answered(now);
    }
    free_both();
}

/* All that is due goes out to nobody: how many segments. */
static unsigned goes_out(uint64_t now)
{
    struct tcpcore_connection_segment segment;
    unsigned count = 0;
    while (tcpcore_connection_emit(&a, now, UINT64_MAX, asked, sizeof asked, &segment) == TCPCORE_DONE)
        count++;
    return count;
}

/* The loop of tcpcore.h, by its words, with nobody at the other end: each keep-alive goes out at its time, then the reset. */
static void in_the_loop(int ticks)
{
    uint64_t now = NOW, next, times[MOST + 1];
    unsigned count = 0, rounds = 0;
    uint32_t timer = TCPCORE_TIMER_NONE;
    establish(0);
    keeps(&a, now, &USUAL);
    do {
        for (unsigned sent = goes_out(now); sent > 0; sent--)
            times[count++] = now;
        uint32_t expired = ticks ? tcpcore_connection_tick(&a, now, &timer, &next) : tcpcore_connection_timeout(&a, now, &timer);
        if (expired == TCPCORE_DONE)
            for (unsigned sent = goes_out(now); sent > 0; sent--)
                times[count++] = now;
        if (!ticks || expired == TCPCORE_DONE)
            next = poll_at(&a);
        now = next > now && next != TCPCORE_NEVER ? next : now;
        CHECK(count <= MOST + 1 && ++rounds < ROUNDS, 1);
    } while (next != TCPCORE_NEVER);
    CHECK(count, MOST + 1);
    for (unsigned i = 0; i <= MOST; i++)
        CHECK(times[i], NOW + IDLE + i * INTERVAL);
    CHECK(asked[13] & RST, RST);
    CHECK(status_of(&a).phase, TCPCORE_PHASE_CLOSED);
    free_both();
}

static void refusals(void)
{
    CHECK(tcpcore_connection_set_keep_alive(&a, 0, &USUAL), TCPCORE_NO_END);
    CHECK(tcpcore_connection_set_keep_alive(NULL, 0, &USUAL), TCPCORE_NULL);
    CHECK(tcpcore_connection_set_keep_alive(&a, 0, NULL), TCPCORE_NULL);
    establish(0);
    CHECK(tcpcore_connection_set_keep_alive(&a, 0, NULL), TCPCORE_NULL);
    tcpcore_connection copy = a;
    CHECK(tcpcore_connection_set_keep_alive(&copy, 0, &USUAL), TCPCORE_COPIED);
    CHECK(poll_at(&a), TCPCORE_NEVER);
    free_both();
}

int main(void)
{
    off();
    asks_the_silent(0);
    asks_the_silent(1);
    gives_up_the_dead();
    is_heard_again();
    is_heard_by_what_is_taken();
    not_while_text_asks();
    phases();
    rules();
    as_a_train();
    in_the_loop(0);
    in_the_loop(1);
    refusals();
    printf("keep_alive: who is silent is asked, and who doesn't answer is given up\n");
    return checks > 100 ? 0 : 1;
}
