/*
 * What the tests of a connection's loss recovery by time share: two ends, of which `a` has a recovery, and a wire between them. A trip takes
 * 100 ms, half of it each way, and segments have 1,000 bytes of text; the peer answers each. So RACK.rtt, SRTT and the least round trip are
 * 100 ms, the reordering window is 25 ms (RFC 8985, 6.2, step 4), and a probe waits for 200 ms, or for 400 ms behind a single segment (7.2).
 * Times are microseconds.
 */
#ifndef TCPCORE_RECOVERY_TESTS_H
#define TCPCORE_RECOVERY_TESTS_H

#include "check.h"
#include "tcpcore.h"

#include <string.h>

enum { MS = 1000, SECOND = 1000000, TRIP = 100 * MS, WINDOW = 25 * MS, FULL = 1000, CAPACITY = 20000, MOST = 32, UNIT = 16, PAINT = 0xee };

static const uint64_t OPENED = SECOND, NOW = 5 * SECOND;
static const tcpcore_addr HERE = {{10, 0, 0, 1}}, THERE = {{10, 0, 0, 2}};
static const struct tcpcore_connection_rules RULES = TCPCORE_CONNECTION_RULES_DEFAULT;
static unsigned char blocks[2][TCPCORE_CONNECTION_MEMORY(CAPACITY, CAPACITY)], text[CAPACITY], memory[TCPCORE_RECOVERY_MEMORY + 3 * UNIT];
static tcpcore_connection a = TCPCORE_CONNECTION_INIT, b = TCPCORE_CONNECTION_INIT;

/* Segments that were emitted: of `a`, and the answers of `b`. */
static struct flight {
    size_t count;
    struct {
        struct tcpcore_connection_segment segment;
        unsigned char bytes[FULL + 64];
    } of[MOST];
} flying, answers;

static inline tcpcore_config config_of(tcpcore_addr addr, uint8_t sack)
{
    tcpcore_config config = TCPCORE_CONFIG_DEFAULT;
    config.addr = addr;
    config.port = 9;
    config.mss = FULL;
    config.isn = UINT32_MAX - 2500;
    config.send_capacity = config.recv_capacity = CAPACITY;
    config.sack = sack;
    return config;
}

/* All that is due of `from` at `now` goes out. */
static inline void emit(struct flight *flight, tcpcore_connection *from, uint64_t now)
{
    unsigned char bytes[TCPCORE_EMIT_ROOM];
    struct tcpcore_connection_segment segment;
    uint32_t answer;
    while ((answer = tcpcore_connection_emit(from, now, UINT64_MAX, bytes, sizeof bytes, &segment)) == TCPCORE_DONE) {
        CHECK(flight->count < MOST && segment.length <= sizeof flight->of->bytes, 1);
        flight->of[flight->count].segment = segment;
        memcpy(flight->of[flight->count++].bytes, bytes, (size_t)segment.length);
    }
    CHECK(answer, TCPCORE_NOT_DUE);
}

static inline void arrive(tcpcore_connection *to, tcpcore_addr src, tcpcore_addr dst, const struct flight *flight, size_t at, uint64_t now)
{
    struct tcpcore_arrive_report report;
    CHECK(tcpcore_connection_arrive(to, now, src, dst, flight->of[at].bytes, (size_t)flight->of[at].segment.length, &report), TCPCORE_DONE);
}

/* Of what `a` has emitted one segment comes, and is answered. */
static inline void comes(size_t at, uint64_t now)
{
    unsigned char out[CAPACITY];
    size_t count;
    arrive(&b, HERE, THERE, &flying, at, now);
    tcpcore_connection_receive(&b, now, out, sizeof out, &count);
    emit(&answers, &b, now);
}

/* The answers come. */
static inline void answered(uint64_t now)
{
    for (size_t at = 0; at < answers.count; at++)
        arrive(&a, THERE, HERE, &answers, at, now);
    answers.count = 0;
}

/* What was emitted at `now` takes a trip there and back, but for what of its segments is lost. */
static inline void trip(uint64_t now, unsigned lost)
{
    for (size_t at = 0; at < flying.count; at++)
        if ((lost >> at & 1) == 0)
            comes(at, now + TRIP / 2);
    flying.count = 0;
    answered(now + TRIP);
}

static inline uint64_t poll_at(void)
{
    uint64_t at;
    CHECK(tcpcore_connection_poll_at(&a, &at), TCPCORE_DONE);
    return at;
}

static inline struct tcpcore_status status_of(const tcpcore_connection *connection)
{
    struct tcpcore_status status;
    CHECK(tcpcore_connection_status(connection, &status), TCPCORE_DONE);
    return status;
}

/* Nothing of `a` goes out at `now`, no timer expires, and no time that it asks for has passed. */
static inline void rests(uint64_t now)
{
    uint32_t timer;
    emit(&flying, &a, now);
    CHECK(flying.count, 0);
    CHECK(tcpcore_connection_timeout(&a, now, &timer), TCPCORE_NOT_DUE);
    CHECK(poll_at() > now, 1);
}

/* At `now` one segment of `a` goes out, again, which begins at byte `at`; no timer has expired. */
static inline void again(uint64_t now, uint64_t at, uint64_t count)
{
    uint32_t timer;
    emit(&flying, &a, now);
    CHECK(flying.count, 1);
    CHECK(flying.of[0].segment.position, 1 + at);
    CHECK(flying.of[0].segment.count, count);
    CHECK(tcpcore_connection_timeout(&a, now, &timer), TCPCORE_NOT_DUE);
    CHECK(poll_at() > now, 1);
}

/* At `now` two full segments of `a` go out, again, from byte `at` on; no timer has expired. */
static inline void two_again(uint64_t now, uint64_t at)
{
    uint32_t timer;
    emit(&flying, &a, now);
    CHECK(flying.count, 2);
    for (size_t which = 0; which < 2; which++) {
        CHECK(flying.of[which].segment.position, 1 + at + which * FULL);
        CHECK(flying.of[which].segment.count, FULL);
    }
    CHECK(tcpcore_connection_timeout(&a, now, &timer), TCPCORE_NOT_DUE);
    CHECK(poll_at() > now, 1);
}

/* Text of `a` goes out at `now` as so many segments. */
static inline void sends(uint64_t now, size_t segments)
{
    size_t taken;
    CHECK(tcpcore_connection_send(&a, now, text, segments * FULL, &taken), TCPCORE_DONE);
    CHECK(taken, segments * FULL);
    emit(&flying, &a, now);
    CHECK(flying.count, segments);
}

/* All that `a` has sent was acknowledged, and nothing is to be done. */
static inline void is_over(uint64_t sent)
{
    CHECK(status_of(&a).snd_una, 1 + sent);
    CHECK(poll_at(), TCPCORE_NEVER);
}

static inline void recovers(uint64_t now)
{
    CHECK(tcpcore_connection_set_recovery(&a, now, memory, TCPCORE_RECOVERY_MEMORY), TCPCORE_DONE);
}

static inline void connects(uint8_t sack)
{
    tcpcore_config config = config_of(HERE, sack);
    CHECK(tcpcore_connection_connect(&a, &config, &RULES, THERE, 9, OPENED, blocks[0], sizeof *blocks), TCPCORE_DONE);
}

/* ESTABLISHED at both ends, by a handshake of a trip; the peer keeps so much. */
static inline void meets_within(uint8_t sack, size_t capacity)
{
    tcpcore_config config = config_of(THERE, sack);
    config.recv_capacity = capacity;
    CHECK(tcpcore_connection_listen(&b, &config, &RULES, OPENED, blocks[1], sizeof *blocks), TCPCORE_DONE);
    emit(&flying, &a, OPENED);
    CHECK(flying.count, 1);
    arrive(&b, HERE, THERE, &flying, 0, OPENED + TRIP / 2);
    flying.count = 0;
    emit(&answers, &b, OPENED + TRIP / 2);
    answered(OPENED + TRIP);
    emit(&flying, &a, OPENED + TRIP);
    trip(OPENED + TRIP, 0);
    CHECK(status_of(&a).phase, TCPCORE_PHASE_ESTABLISHED);
    CHECK(status_of(&b).phase, TCPCORE_PHASE_ESTABLISHED);
    CHECK(status_of(&a).sack, sack);
}

static inline void meets(uint8_t sack) { meets_within(sack, CAPACITY); }

/* The same, and `a` finds losses by time from the making on. */
static inline void begin(uint8_t sack, uint32_t congestion)
{
    connects(sack);
    recovers(OPENED);
    CHECK(tcpcore_connection_set_congestion(&a, congestion), TCPCORE_DONE);
    meets(sack);
}

static inline void free_both(void)
{
    flying.count = answers.count = 0;
    CHECK(tcpcore_connection_free(&a), TCPCORE_DONE);
    CHECK(tcpcore_connection_free(&b), TCPCORE_DONE);
}

#endif
