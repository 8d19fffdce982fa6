/* What the tests of a host share: a host of each side, and a wire between them. Times are microseconds. */
#ifndef TCPCORE_HOST_TESTS_H
#define TCPCORE_HOST_TESTS_H

#include "check.h"
#include "tcpcore.h"

#include <string.h>

enum { MS = 1000, SECOND = 1000000, TIME_WAIT = 240 * SECOND, CAPACITY = 4096, MOST = 24, PORT = 80, FIN = 1, SYN = 2, RST = 4, ACK = 16 };

static const tcpcore_addr CLIENT = {{10, 0, 0, 1}}, SERVER = {{10, 0, 0, 2}};
static const struct tcpcore_connection_rules RULES = TCPCORE_CONNECTION_RULES_DEFAULT;

/* The blocks of a side's connections, by the slots of the host, and those that are free. */
struct side {
    tcpcore_host host;
    tcpcore_addr addr;
    size_t next;
    unsigned char tables[TCPCORE_HOST_MEMORY(2 * MOST, MOST, 2, 64)], blocks[2 * MOST][TCPCORE_CONNECTION_MEMORY(CAPACITY, CAPACITY)];
};

static inline tcpcore_config config_of(tcpcore_addr addr, uint16_t port, uint32_t isn)
{
    tcpcore_config config = TCPCORE_CONFIG_DEFAULT;
    config.addr = addr;
    config.port = port;
    config.isn = isn;
    config.send_capacity = config.recv_capacity = CAPACITY;
    return config;
}

static inline void begins(struct side *side, tcpcore_addr addr)
{
    tcpcore_host empty = TCPCORE_HOST_INIT;
    side->host = empty;
    side->addr = addr;
    side->next = 0;
    CHECK(tcpcore_host_new(&side->host, TIME_WAIT, 10 * MS, side->tables, sizeof side->tables), TCPCORE_DONE);
}

/* The client connects from a port. */
static inline struct tcpcore_host_id connects(struct side *side, uint16_t port, uint64_t now)
{
    tcpcore_config config = config_of(side->addr, port, 1000u * port);
    tcpcore_connection connection = TCPCORE_CONNECTION_INIT;
    struct tcpcore_host_id id;
    CHECK(tcpcore_connection_connect(&connection, &config, &RULES, SERVER, PORT, now, side->blocks[side->next], sizeof *side->blocks),
          TCPCORE_DONE);
    CHECK(tcpcore_host_open(&side->host, &connection, &id), TCPCORE_DONE);
    CHECK(connection.opaque[0] | connection.opaque[1] | connection.opaque[2], 0);
    side->next++;
    return id;
}

/* The server makes a connection for what asks a listener: the answer of its admission. */
static inline uint32_t admits(struct side *side, const struct tcpcore_host_id *listener, tcpcore_addr src, const unsigned char *bytes,
                              size_t length, uint64_t now, struct tcpcore_host_id *id)
{
    tcpcore_config config = config_of(side->addr, PORT, 5000u * (bytes[0] * 256u + bytes[1]));
    tcpcore_connection connection = TCPCORE_CONNECTION_INIT;
    CHECK(tcpcore_connection_listen(&connection, &config, &RULES, now, side->blocks[side->next], sizeof *side->blocks), TCPCORE_DONE);
    uint32_t answer = tcpcore_host_admit(&side->host, listener, &connection, src, side->addr, bytes, length, id);
    if (answer == TCPCORE_DONE)
        side->next++;
    else
        CHECK(tcpcore_connection_free(&connection), TCPCORE_DONE);
    return answer;
}

/* A segment comes to a host: whose it is. For a listener that it asks a connection is made, and it comes again. */
static inline uint32_t comes(struct side *side, tcpcore_addr src, const unsigned char *bytes, size_t length, uint64_t now)
{
    struct tcpcore_host_arrived arrived;
    struct tcpcore_arrive_report report;
    struct tcpcore_host_id id;
    tcpcore_host_arrive(&side->host, now, src, side->addr, bytes, length, &arrived, &report);
    if (arrived.place != TCPCORE_PLACE_LISTENER)
        return arrived.place;
    CHECK(admits(side, &arrived.id, src, bytes, length, now, &id), TCPCORE_DONE);
    CHECK(tcpcore_host_arrive(&side->host, now, src, side->addr, bytes, length, &arrived, &report), TCPCORE_DONE);
    CHECK(arrived.place == TCPCORE_PLACE_END && arrived.id.slot == id.slot && arrived.id.number == id.number, 1);
    return TCPCORE_PLACE_LISTENER;
}

/* All that one side has due goes to the other: how many segments. The last one is left in `last`, with its length. */
static unsigned char last[TCPCORE_EMIT_ROOM];
static size_t last_length;

static inline unsigned carries(struct side *from, struct side *to, uint64_t now)
{
    struct tcpcore_host_sent sent;
    unsigned count = 0;
    uint32_t answer;
    while ((answer = tcpcore_host_emit(&from->host, now, UINT64_MAX, last, sizeof last, &sent)) != TCPCORE_NOBODY) {
        if (answer == TCPCORE_NOT_DUE)
            continue;
        CHECK(answer, TCPCORE_DONE);
        CHECK(memcmp(&sent.from, &from->addr, sizeof sent.from) | memcmp(&sent.to, &to->addr, sizeof sent.to), 0);
        last_length = (size_t)sent.length;
        comes(to, from->addr, last, last_length, now);
        count++;
    }
    return count;
}

static inline uint32_t phase_of(struct side *side, struct tcpcore_host_id id)
{
    struct tcpcore_status status;
    CHECK(tcpcore_host_status(&side->host, &id, &status), TCPCORE_DONE);
    return status.phase;
}

static inline uint64_t poll_at(const struct side *side)
{
    uint64_t at = 7;
    CHECK(tcpcore_host_poll_at(&side->host, &at), TCPCORE_DONE);
    return at;
}

#endif
