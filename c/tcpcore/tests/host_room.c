/*
 * TCPCORE_HOST_MEMORY is enough: for so many connections, in one host that they come to and leave again and again; for so many TIME-WAIT
 * records; and for so many listeners, which go and come. With less than half of that there is no memory for them, so that it is no idle
 * bound; what didn't fit can be made once another one is gone.
 */
#include "check.h"
#include "tcpcore.h"

#include <string.h>

enum { SMALL = 64, PORT = 80, MOST = 1025 };

static const tcpcore_addr HERE = {{10, 0, 0, 1}}, THERE = {{10, 0, 0, 2}};
static const struct tcpcore_connection_rules RULES = TCPCORE_CONNECTION_RULES_DEFAULT;
static unsigned char blocks[MOST + 1][TCPCORE_CONNECTION_MEMORY_RUNS(SMALL, SMALL, 1)];
static unsigned char tables[TCPCORE_HOST_MEMORY(MOST, MOST, MOST, 4 * MOST)];
static struct tcpcore_host_id ids[MOST];
static tcpcore_host host;
static uint32_t lots;

static size_t lot(size_t below)
{
    lots = lots * 1664525 + 1013904223;
    return (lots >> 8) % below;
}

static void begins(size_t size)
{
    tcpcore_host empty = TCPCORE_HOST_INIT;
    host = empty;
    lots = 1;
    CHECK(tcpcore_host_new(&host, 1000000, 0, tables, size), TCPCORE_DONE);
}

static tcpcore_config config_of(tcpcore_addr addr, uint16_t port)
{
    tcpcore_config config = TCPCORE_CONFIG_DEFAULT;
    config.addr = addr;
    config.port = port;
    config.send_capacity = config.recv_capacity = SMALL;
    config.runs = 1;
    return config;
}

/* A connection from any port to any peer comes to a host: the answer, once it was of none that is there. */
static uint32_t opens(unsigned char *block, struct tcpcore_host_id *id)
{
    for (;;) {
        tcpcore_connection connection = TCPCORE_CONNECTION_INIT;
        tcpcore_config config = config_of(HERE, (uint16_t)(1 + lot(65535)));
        tcpcore_addr peer = {{10, (uint8_t)lot(256), 0, 2}};
        CHECK(tcpcore_connection_connect(&connection, &config, &RULES, peer, PORT, 0, block, sizeof *blocks), TCPCORE_DONE);
        uint32_t answer = tcpcore_host_open(&host, &connection, id);
        if (answer == TCPCORE_DONE)
            return answer;
        CHECK(tcpcore_connection_free(&connection), TCPCORE_DONE);
        if (answer != TCPCORE_TAKEN)
            return answer;
    }
}

static void removed(struct tcpcore_host_id id)
{
    tcpcore_connection connection = TCPCORE_CONNECTION_INIT;
    CHECK(tcpcore_host_remove(&host, &id, &connection), TCPCORE_DONE);
    CHECK(tcpcore_connection_free(&connection), TCPCORE_DONE);
}

/* So many fit, whoever comes and goes: each has a place that another has left. */
static void connections(size_t most)
{
    begins(TCPCORE_HOST_MEMORY(most, 0, 0, 0));
    for (size_t i = 0; i < most; i++)
        CHECK(opens(blocks[i], &ids[i]), TCPCORE_DONE);
    for (size_t i = 0; i < 4 * most + 100; i++) {
        size_t at = lot(most);
        removed(ids[at]);
        CHECK(opens(blocks[at], &ids[at]), TCPCORE_DONE);
        CHECK(ids[at].slot < most, 1);
    }
    CHECK(tcpcore_host_free(&host), TCPCORE_DONE);
}

/* In less there comes a time when one more doesn't fit; where it is refused nothing is lost, and it fits in another's place. */
static void too_small(size_t most)
{
    size_t count = 0;
    begins(2048 + 150 * most);
    while (count < most && opens(blocks[count], &ids[count]) == TCPCORE_DONE)
        count++;
    CHECK(count < most && count > 0, 1);
    for (size_t i = 0; i < 50; i++) {
        removed(ids[i % count]);
        CHECK(opens(blocks[i % count], &ids[i % count]), TCPCORE_DONE);
        CHECK(opens(blocks[count], &ids[count]), TCPCORE_NO_MEMORY);
    }
    CHECK(tcpcore_host_free(&host), TCPCORE_DONE);
}

/* All that is due on either side comes to the other. */
static void carries(tcpcore_connection *peer)
{
    unsigned char out[TCPCORE_EMIT_ROOM];
    struct tcpcore_host_sent sent;
    struct tcpcore_connection_segment segment;
    struct tcpcore_host_arrived arrived;
    struct tcpcore_arrive_report report;
    uint32_t answer;
    while ((answer = tcpcore_host_emit(&host, 0, UINT64_MAX, out, sizeof out, &sent)) != TCPCORE_NOBODY)
        if (answer == TCPCORE_DONE)
            tcpcore_connection_arrive(peer, 0, HERE, THERE, out, (size_t)sent.length, &report);
    while (tcpcore_connection_emit(peer, 0, UINT64_MAX, out, sizeof out, &segment) == TCPCORE_DONE)
        tcpcore_host_arrive(&host, 0, THERE, HERE, out, (size_t)segment.length, &arrived, &report);
}

/* One connection behind the other goes through to TIME-WAIT, and leaves a record. */
static void records(size_t most)
{
    struct tcpcore_host_told told;
    begins(TCPCORE_HOST_MEMORY(1, most, 0, 0));
    for (size_t i = 0; i < most; i++) {
        tcpcore_connection connection = TCPCORE_CONNECTION_INIT, peer = TCPCORE_CONNECTION_INIT;
        tcpcore_config own = config_of(HERE, (uint16_t)(1 + i)), other = config_of(THERE, PORT);
        struct tcpcore_host_id id;
        CHECK(tcpcore_connection_connect(&connection, &own, &RULES, THERE, PORT, 0, blocks[0], sizeof *blocks), TCPCORE_DONE);
        CHECK(tcpcore_connection_listen(&peer, &other, &RULES, 0, blocks[1], sizeof *blocks), TCPCORE_DONE);
        CHECK(tcpcore_host_open(&host, &connection, &id), TCPCORE_DONE);
        carries(&peer);
        carries(&peer);
        CHECK(tcpcore_host_close(&host, 0, &id), TCPCORE_DONE);
        carries(&peer);
        CHECK(tcpcore_connection_close(&peer, 0), TCPCORE_DONE);
        carries(&peer);
        carries(&peer);
        CHECK(tcpcore_host_retire(&host, &id, &connection), TCPCORE_DONE);
        CHECK(tcpcore_connection_free(&connection), TCPCORE_DONE);
        CHECK(tcpcore_connection_free(&peer), TCPCORE_DONE);
    }
    for (size_t i = 0; i < most; i++)
        CHECK(tcpcore_host_timeout(&host, UINT64_C(240000000), &told), TCPCORE_DONE);
    CHECK(tcpcore_host_timeout(&host, UINT64_C(240000000), &told), TCPCORE_NOBODY);
    CHECK(tcpcore_host_free(&host), TCPCORE_DONE);
}

static void listeners(size_t most, size_t backlog)
{
    begins(TCPCORE_HOST_MEMORY(0, 0, most, backlog * most));
    for (size_t i = 0; i < 5 * most; i++) {
        struct tcpcore_host_id *id = &ids[i % most];
        if (i >= most)
            CHECK(tcpcore_host_unlisten(&host, id), TCPCORE_DONE);
        CHECK(tcpcore_host_listen(&host, HERE, (uint16_t)(1 + i), backlog, id), TCPCORE_DONE);
    }
    CHECK(tcpcore_host_free(&host), TCPCORE_DONE);
}

/* What is refused takes nothing: behind listeners whose backlogs have no room, of whatever size, as many connections fit. */
static void refused(size_t most)
{
    struct tcpcore_host_id id;
    begins(TCPCORE_HOST_MEMORY(most, 0, 1, 0));
    for (size_t i = 0; i < 1000; i++)
        CHECK(tcpcore_host_listen(&host, HERE, PORT, sizeof tables + 100 * i, &id), TCPCORE_NO_MEMORY);
    CHECK(tcpcore_host_listen(&host, HERE, PORT, 0, &id), TCPCORE_DONE);
    for (size_t i = 0; i < most; i++)
        CHECK(opens(blocks[i], &ids[i]), TCPCORE_DONE);
    CHECK(tcpcore_host_free(&host), TCPCORE_DONE);
}

int main(void)
{
    for (size_t most = 1; most <= MOST; most += most < 20 ? 1 : most - 1) {
        connections(most);
        records(most < 200 ? most : 200);
        listeners(most, 0);
        listeners(most, 4);
    }
    too_small(100);
    too_small(1000);
    refused(100);
    refused(1000);
    printf("host_room: a host of its block's size has room for whom it is made for, whoever comes and goes\n");
    return checks > 1000 ? 0 : 1;
}
