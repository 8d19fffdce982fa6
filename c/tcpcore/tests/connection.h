/* What the tests of a connection share: two ends, their addresses and rules, and how they come to ESTABLISHED. Times are microseconds. */
#ifndef TCPCORE_CONNECTION_TESTS_H
#define TCPCORE_CONNECTION_TESTS_H

#include "check.h"
#include "tcpcore.h"

#include <string.h>

enum { SECOND = 1000000, CAPACITY = 1000 };

static const tcpcore_addr HERE = {{10, 0, 0, 1}}, THERE = {{10, 0, 0, 2}}, NOWHERE = {{0, 0, 0, 0}};
static const struct tcpcore_connection_rules RULES = TCPCORE_CONNECTION_RULES_DEFAULT;
static const size_t HUGE_LENGTH = (size_t)PTRDIFF_MAX + 1;
static unsigned char blocks[2][TCPCORE_CONNECTION_MEMORY(CAPACITY, CAPACITY)];
static tcpcore_connection a = TCPCORE_CONNECTION_INIT, b = TCPCORE_CONNECTION_INIT;

static inline tcpcore_config good_config(tcpcore_addr addr)
{
    return (tcpcore_config){
        .addr = addr, .port = 9, .mss = 1460, .isn = 1, .send_capacity = CAPACITY, .recv_capacity = CAPACITY, .limit = TCPCORE_LIMIT,
        .sack = 1};
}

static inline uint32_t connects(const tcpcore_config *config, const struct tcpcore_connection_rules *rules)
{
    return tcpcore_connection_connect(&a, config, rules, THERE, 9, 0, blocks[0], sizeof *blocks);
}

static inline int are_all(const void *at, size_t size, unsigned char value)
{
    const unsigned char *bytes = at;
    size_t i = 0;
    while (i < size && bytes[i] == value)
        i++;
    return i == size;
}

static inline struct tcpcore_status status_of(const tcpcore_connection *connection)
{
    struct tcpcore_status status;
    CHECK(tcpcore_connection_status(connection, &status), TCPCORE_DONE);
    return status;
}

static inline uint64_t poll_at(const tcpcore_connection *connection)
{
    uint64_t at = 7;
    CHECK(tcpcore_connection_poll_at(connection, &at), TCPCORE_DONE);
    return at;
}

/* Both ends, opened at 0. */
static inline void open_both(void)
{
    tcpcore_config config = good_config(HERE);
    CHECK(connects(&config, &RULES), TCPCORE_DONE);
    config = good_config(THERE);
    CHECK(tcpcore_connection_listen(&b, &config, &RULES, 0, blocks[1], sizeof *blocks), TCPCORE_DONE);
}

static inline void free_both(void)
{
    CHECK(tcpcore_connection_free(&a), TCPCORE_DONE);
    CHECK(tcpcore_connection_free(&b), TCPCORE_DONE);
    CHECK(are_all(&a, sizeof a, 0), 1);
}

/* Hands all that is due to the other end; how many segments that is. */
static inline size_t carry(tcpcore_connection *from, tcpcore_addr src, tcpcore_connection *to, uint64_t now)
{
    unsigned char bytes[TCPCORE_EMIT_ROOM];
    struct tcpcore_connection_segment segment;
    struct tcpcore_arrive_report report;
    size_t count = 0;
    while (tcpcore_connection_emit(from, now, UINT64_MAX, bytes, sizeof bytes, &segment) == TCPCORE_DONE) {
        CHECK(tcpcore_connection_arrive(to, now, src, segment.to, bytes, segment.length, &report), TCPCORE_DONE);
        count++;
    }
    return count;
}

/* ESTABLISHED at both ends. */
static inline void establish(uint64_t now)
{
    open_both();
    CHECK(carry(&a, HERE, &b, now), 1);
    CHECK(carry(&b, THERE, &a, now), 1);
    CHECK(carry(&a, HERE, &b, now), 1);
    CHECK(status_of(&a).phase, TCPCORE_PHASE_ESTABLISHED);
    CHECK(status_of(&b).phase, TCPCORE_PHASE_ESTABLISHED);
}

/* Sends text at 5 s that is lost, of so many bytes in each of two segments. */
static inline void lose_text(void)
{
    unsigned char bytes[TCPCORE_EMIT_ROOM];
    struct tcpcore_connection_segment segment;
    size_t count;
    for (int i = 0; i < 2; i++) {
        CHECK(tcpcore_connection_send(&a, 5 * SECOND, "hello", 5, &count), TCPCORE_DONE);
        CHECK(tcpcore_connection_emit(&a, 5 * SECOND, UINT64_MAX, bytes, sizeof bytes, &segment), TCPCORE_DONE);
    }
}

#endif
