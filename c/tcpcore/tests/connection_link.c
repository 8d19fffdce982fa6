/*
 * The test of whole connections over a simulated link, which delays, loses and swaps segments: both ends are driven by what poll_at and
 * timeout say alone. Text goes both ways, each side closes, one rests in TIME-WAIT, and both end in order; as losses are found by a trip behind
 * a gap, and by time. Then a peer that is gone: a SYN, text and FIN-WAIT-2 that nobody answers, each given up at its limit (RFC 9293, 3.8.3).
 */
#include "check.h"
#include "tcpcore.h"

#include <string.h>

enum { CAPACITY = 20000, TEXT = 290000, WAITING = 4096 };

/* Times in microseconds. */
#define SECOND UINT64_C(1000000)
#define MILLISECOND UINT64_C(1000)

static const tcpcore_addr ADDRS[2] = {{{10, 0, 0, 1}}, {{10, 0, 0, 2}}};
static tcpcore_connection ends[2];
static unsigned char blocks[2][TCPCORE_CONNECTION_MEMORY(CAPACITY, CAPACITY)], recoveries[2][TCPCORE_RECOVERY_MEMORY], text[2][TEXT];
static uint64_t now;

/* What is under way to an end. */
static struct segment {
    uint64_t at;
    size_t length;
    unsigned char bytes[TCPCORE_EMIT_ROOM];
} wire[2][WAITING];
static size_t waiting[2];

/* The link: how long it takes, how much longer some segments take, and how many of a hundred it loses. */
static uint64_t delay, jitter;
static uint32_t loss;
static int is_cut;

/* Whether both ends find losses by time (RFC 8985). */
static int by_time;

/* What each side has done. */
static struct side {
    size_t given, got, reads, emitted;
    int is_closed, is_at_end;
    unsigned expired[4];
} sides[2];

static uint64_t word = 88172645463325252u;

static uint64_t any(uint64_t bound)
{
    word ^= word << 13;
    word ^= word >> 7;
    word ^= word << 17;
    return (word >> 16) % bound;
}

static struct tcpcore_status status_of(int side)
{
    struct tcpcore_status status;
    CHECK(tcpcore_connection_status(&ends[side], &status), TCPCORE_DONE);
    return status;
}

static uint64_t poll_at(int side)
{
    uint64_t at;
    CHECK(tcpcore_connection_poll_at(&ends[side], &at), TCPCORE_DONE);
    return at;
}

static void open_both(const struct tcpcore_connection_rules *rules, uint16_t mss)
{
    now = 1000 * SECOND;
    waiting[0] = waiting[1] = 0;
    is_cut = 0;
    memset(sides, 0, sizeof sides);
    for (int side = 1; side >= 0; side--) {
        tcpcore_config config = TCPCORE_CONFIG_DEFAULT;
        config.addr = ADDRS[side];
        config.port = (uint16_t)(1 + side);
        config.mss = mss;
        config.isn = (uint32_t)any(UINT64_C(1) << 32);
        config.send_capacity = config.recv_capacity = CAPACITY;
        uint32_t answer = side == 1 ? tcpcore_connection_listen(&ends[1], &config, rules, now, blocks[1], sizeof *blocks)
                                    : tcpcore_connection_connect(&ends[0], &config, rules, ADDRS[1], 2, now, blocks[0], sizeof *blocks);
        CHECK(answer, TCPCORE_DONE);
        if (by_time)
            CHECK(tcpcore_connection_set_recovery(&ends[side], now, recoveries[side], sizeof *recoveries), TCPCORE_DONE);
    }
}

static void free_both(void)
{
    CHECK(tcpcore_connection_free(&ends[0]), TCPCORE_DONE);
    CHECK(tcpcore_connection_free(&ends[1]), TCPCORE_DONE);
}

/* All that may go out goes onto the link, which may lose it. */
static void emit(int side)
{
    struct tcpcore_connection_segment sent;
    for (;;) {
        struct segment *segment = &wire[1 - side][waiting[1 - side]];
        CHECK(waiting[1 - side] < WAITING, 1);
        uint32_t answer = tcpcore_connection_emit(&ends[side], now, UINT64_MAX, segment->bytes, sizeof segment->bytes, &sent);
        if (answer != TCPCORE_DONE) {
            CHECK(answer, TCPCORE_NOT_DUE);
            return;
        }
        CHECK(memcmp(&sent.to, &ADDRS[1 - side], sizeof sent.to), 0);
        sides[side].emitted++;
        segment->length = (size_t)sent.length;
        segment->at = now + delay + (jitter > 0 ? any(jitter) : 0);
        if (!is_cut && any(100) >= loss)
            waiting[1 - side]++;
    }
}

/* Hands in what has come, as the header says. */
static void take(int side)
{
    struct tcpcore_arrive_report report;
    size_t left = 0;
    for (size_t i = 0; i < waiting[side]; i++) {
        const struct segment *came = &wire[side][i];
        if (came->at > now) {
            if (left++ < i)
                wire[side][left - 1] = *came;
            continue;
        }
        uint32_t answer = tcpcore_connection_arrive(&ends[side], now, ADDRS[1 - side], ADDRS[side], came->bytes, came->length, &report);
        if (answer == TCPCORE_EMIT_FIRST) {
            emit(side);
            answer = tcpcore_connection_arrive(&ends[side], now, ADDRS[1 - side], ADDRS[side], came->bytes, came->length, &report);
        }
        CHECK(answer == TCPCORE_DONE || answer == TCPCORE_DROPPED || answer == TCPCORE_WITHHELD, 1);
    }
    waiting[side] = left;
}

/* The user sends all of its text and closes, and reads what there is. */
static void use(int side)
{
    struct side *s = &sides[side];
    static unsigned char read[CAPACITY];
    size_t count = 1;
    uint32_t answer;
    while (s->given < TEXT && count > 0) {
        answer = tcpcore_connection_send(&ends[side], now, text[side] + s->given, TEXT - s->given, &count);
        if (answer == TCPCORE_NOT_CONNECTED)
            break;
        CHECK(answer, TCPCORE_DONE);
        s->given += count;
    }
    if (s->given == TEXT && !s->is_closed) {
        CHECK(tcpcore_connection_close(&ends[side], now), TCPCORE_DONE);
        s->is_closed = 1;
    }
    while ((answer = tcpcore_connection_receive(&ends[side], now, read, sizeof read, &count)) == TCPCORE_DONE) {
        CHECK(memcmp(read, text[1 - side] + s->got, count), 0);
        s->got += count;
        s->reads++;
    }
    s->is_at_end |= answer == TCPCORE_END_OF_STREAM;
}

static void expire(int side)
{
    uint32_t timer;
    if (tcpcore_connection_timeout(&ends[side], now, &timer) != TCPCORE_DONE)
        return;
    sides[side].expired[timer]++;
    emit(side);
}

/* Time goes on to the next arrival or deadline, unless there is none. */
static int goes_on(void)
{
    uint64_t next = TCPCORE_NEVER;
    for (int side = 0; side < 2; side++) {
        uint64_t at = poll_at(side);
        next = at < next ? at : next;
        for (size_t i = 0; i < waiting[side]; i++)
            next = wire[side][i].at < next ? wire[side][i].at : next;
    }
    if (next == TCPCORE_NEVER)
        return 0;
    now = next > now ? next : now;
    return 1;
}

static void turn(int users)
{
    for (int side = 0; side < 2; side++) {
        take(side);
        if (users)
            use(side);
        emit(side);
        expire(side);
    }
}

/* A whole connection, and how long it took to the last byte, in microseconds. */
static uint64_t transfer(uint16_t mss, uint64_t long_delay, uint64_t more, uint32_t lost)
{
    static const struct tcpcore_connection_rules RULES = TCPCORE_CONNECTION_RULES_DEFAULT;
    uint64_t began, took = 0;
    delay = long_delay;
    jitter = more;
    loss = lost;
    open_both(&RULES, mss);
    began = now;
    do {
        turn(1);
        if (took == 0 && sides[0].got == TEXT && sides[1].got == TEXT)
            took = now - began;
    } while (goes_on());
    for (int side = 0; side < 2; side++) {
        struct tcpcore_status status = status_of(side);
        CHECK(sides[side].got, TEXT);
        CHECK(sides[side].is_at_end, 1);
        CHECK(status.phase, TCPCORE_PHASE_CLOSED);
        CHECK(status.ending, TCPCORE_ENDING_ORDERLY);
        CHECK(status.released, TEXT);
        CHECK(sides[side].expired[TCPCORE_TIMER_USER], 0);
        if (lost == 0 && more == 0)
            CHECK(sides[side].expired[TCPCORE_TIMER_RETRANSMIT] + sides[side].expired[TCPCORE_TIMER_REORDER], 0);
    }
    /* Each rests at most once, and at least one does, for four minutes (RFC 9293, 3.4.2 and 3.6). */
    CHECK(sides[0].expired[TCPCORE_TIMER_TIME_WAIT] + sides[1].expired[TCPCORE_TIMER_TIME_WAIT] >= 1, 1);
    CHECK(now - began - took >= 240 * SECOND, 1);
    free_both();
    return took;
}

/* ESTABLISHED at both ends, over a link of 10 ms that loses nothing. */
static void establish(const struct tcpcore_connection_rules *rules)
{
    delay = 10 * MILLISECOND;
    jitter = loss = 0;
    open_both(rules, 1460);
    while (turn(0), status_of(1).phase != TCPCORE_PHASE_ESTABLISHED)
        CHECK(goes_on(), 1);
}

/* From now on nothing comes: how long until the connection of side 0 has ended. */
static uint64_t given_up(void)
{
    uint64_t began = now;
    is_cut = 1;
    waiting[0] = waiting[1] = 0;
    while (status_of(0).ending == TCPCORE_ENDING_NOT_ENDED) {
        uint64_t at = poll_at(0);
        CHECK(at != TCPCORE_NEVER, 1);
        now = at > now ? at : now;
        emit(0);
        expire(0);
    }
    CHECK(status_of(0).ending, TCPCORE_ENDING_ABORTED);
    CHECK(sides[0].expired[TCPCORE_TIMER_USER], 1);
    CHECK(poll_at(0), TCPCORE_NEVER);
    return now - began;
}

/* What is without an answer is given up at its limit, and not before so many timeouts. */
static void peers_gone(void)
{
    struct tcpcore_connection_rules rules = TCPCORE_CONNECTION_RULES_DEFAULT;
    size_t count;
    open_both(&rules, 1460);
    emit(0);
    CHECK(given_up(), 180 * SECOND);
    free_both();
    establish(&rules);
    CHECK(tcpcore_connection_send(&ends[0], now, text[0], 5000, &count), TCPCORE_DONE);
    emit(0);
    CHECK(given_up(), 300 * SECOND);
    free_both();
    /* Timeouts at 1, 3 and 7 s: the third makes the path suspect. */
    rules.user = SECOND;
    establish(&rules);
    CHECK(tcpcore_connection_send(&ends[0], now, text[0], 5000, &count), TCPCORE_DONE);
    emit(0);
    CHECK(given_up(), 7 * SECOND);
    CHECK(sides[0].expired[TCPCORE_TIMER_RETRANSMIT], 3);
    free_both();
    /* FIN-WAIT-2 has no limit unless it is said. */
    rules.user = 300 * SECOND;
    establish(&rules);
    CHECK(tcpcore_connection_close(&ends[0], now), TCPCORE_DONE);
    while (turn(0), status_of(0).phase != TCPCORE_PHASE_FIN_WAIT_2)
        CHECK(goes_on(), 1);
    CHECK(poll_at(0), TCPCORE_NEVER);
    free_both();
    rules.fin_wait_2 = 60 * SECOND;
    establish(&rules);
    CHECK(tcpcore_connection_close(&ends[0], now), TCPCORE_DONE);
    while (turn(0), status_of(0).phase != TCPCORE_PHASE_FIN_WAIT_2)
        CHECK(goes_on(), 1);
    CHECK(given_up(), 60 * SECOND);
    free_both();
}

/* A reset in TIME-WAIT counts as lost (RFC 1337, 3), and the rest of the time passes. */
static void resets_in_time_wait(void)
{
    static const struct tcpcore_connection_rules RULES = TCPCORE_CONNECTION_RULES_DEFAULT;
    struct tcpcore_arrive_report report;
    unsigned char reset[20] = {0};
    establish(&RULES);
    for (int side = 0; side < 2; side++) {
        CHECK(tcpcore_connection_close(&ends[side], now), TCPCORE_DONE);
        while (turn(0), waiting[0] + waiting[1] > 0)
            CHECK(goes_on(), 1);
    }
    CHECK(status_of(0).phase, TCPCORE_PHASE_TIME_WAIT);
    CHECK(status_of(1).phase, TCPCORE_PHASE_CLOSED);
    reset[13] = 4;
    CHECK(tcpcore_connection_arrive(&ends[0], now, ADDRS[1], ADDRS[0], reset, sizeof reset, &report), TCPCORE_WITHHELD);
    uint64_t at = poll_at(0);
    CHECK(at - now <= 240 * SECOND && at - now > 239 * SECOND, 1);
    now = at;
    expire(0);
    CHECK(sides[0].expired[TCPCORE_TIMER_TIME_WAIT], 1);
    CHECK(status_of(0).phase, TCPCORE_PHASE_CLOSED);
    CHECK(status_of(0).ending, TCPCORE_ENDING_ORDERLY);
    free_both();
}

int main(void)
{
    for (size_t at = 0; at < TEXT; at++) {
        text[0][at] = (unsigned char)(at * 7 + at / 251);
        text[1][at] = (unsigned char)(at * 13 + at / 241);
    }
    /* Without a loss 290,000 bytes at 20,000 a round trip take 16 trips and little more. */
    for (by_time = 0; by_time < 2; by_time++) {
        CHECK(transfer(1460, 10 * MILLISECOND, 0, 0) <= 20 * 20 * MILLISECOND, 1);
        transfer(536, 10 * MILLISECOND, 0, 0);
        for (uint32_t lost = 1; lost <= 20; lost += lost < 5 ? 1 : 5) {
            transfer(1460, 5 * MILLISECOND, 0, lost);
            transfer(536, 50 * MILLISECOND, 3 * MILLISECOND, lost);
        }
        transfer(1460, 50 * MILLISECOND, 40 * MILLISECOND, 0);
        peers_gone();
        resets_in_time_wait();
    }
    printf("connection_link: whole connections by poll_at and timeout alone\n");
    return 0;
}
