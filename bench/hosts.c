/*
 * hosts CONNECTIONS ROUNDS: two hosts in one process, and a call in place of the network. A opens CONNECTIONS to a listener of B, one after
 * the other. Then, twice ROUNDS times, a connection that is drawn sends 64 bytes, B's user echoes them, and A's reads them: three segments,
 * the last of which is A's acknowledgement, which waits until its time has come. Each connection has keep-alives, so that it has a deadline
 * at all times. Under callgrind with --instr-atstart=no the last openings are part 1 of what is counted, and the second half of the rounds
 * is part 3; bench/hosts.sh looks up in them what the functions took that are COUNTED.
 * Status 1 where a byte, an answer, or how many were due isn't as it has to be.
 */
#include "tcpcore.h"

#include <stdio.h>
#include <stdlib.h>
#include <string.h>
#include <valgrind/callgrind.h>

#ifndef TCPCORE_HAS_HOSTS
#error "there are no hosts here, only in machine code: see HOSTS in tcpcore.h"
#endif

/* A function that keeps its name and its calls, so that callgrind can tell it from others. */
#define COUNTED __attribute__((noipa))

enum { CAPACITY = 512, RUNS = 8, TEXT = 64, PORT = 7, FIRST_PORT = 10000, PORTS = 50000, BACKLOG = 16, STEP = 1000, LAST = 100 };

/* A host, and the blocks and names of its connections. */
struct side {
    tcpcore_host host;
    unsigned char *tables, *blocks;
    struct tcpcore_host_id *ids;
    uint32_t count;
};

static const tcpcore_addr SERVER = {{10, 9, 0, 1}};
static const struct tcpcore_connection_rules RULES = TCPCORE_CONNECTION_RULES_DEFAULT;
static const struct tcpcore_policy POLICY = TCPCORE_POLICY_DEFAULT;
static const struct tcpcore_keep_alive KEEP_ALIVE = TCPCORE_KEEP_ALIVE_DEFAULT;
static struct side a, b;
static struct tcpcore_host_id listener, reader; /* reader: to whom a segment came last */
static uint64_t now = 1;
static size_t room;
static unsigned long segments;

static void need(int is_so, const char *what)
{
    if (!is_so) {
        fprintf(stderr, "hosts: %s\n", what);
        exit(1);
    }
}

static void done(uint32_t answer) { need(answer == TCPCORE_DONE, tcpcore_strerror(answer)); }

static void *some(size_t count, size_t size)
{
    void *memory = calloc(count, size);
    need(memory != NULL, "no memory");
    return memory;
}

static void begin(struct side *side, size_t connections, size_t listeners)
{
    size_t length = TCPCORE_HOST_MEMORY(connections, 1, listeners, listeners * BACKLOG);
    side->tables = some(length, 1);
    side->blocks = some(connections, room);
    side->ids = some(connections, sizeof *side->ids);
    done(tcpcore_host_new(&side->host, RULES.time_wait, 0, side->tables, length));
}

static void *next_block(struct side *side) { return side->blocks + room * side->count; }

static tcpcore_config config_of(tcpcore_addr addr, uint16_t port, uint32_t isn)
{
    tcpcore_config config = TCPCORE_CONFIG_DEFAULT;
    config.addr = addr;
    config.port = port;
    config.isn = isn;
    config.send_capacity = config.recv_capacity = CAPACITY;
    config.runs = RUNS;
    return config;
}

static void choose(tcpcore_connection *connection)
{
    done(tcpcore_connection_set_congestion(connection, TCPCORE_CONGESTION_CUBIC));
    done(tcpcore_connection_set_policy(connection, &POLICY));
    done(tcpcore_connection_set_keep_alive(connection, now, &KEEP_ALIVE));
}

/* B's user has a connection for what asks its listener. */
static void admit(tcpcore_addr src, const unsigned char *bytes, size_t length)
{
    tcpcore_config config = config_of(SERVER, PORT, 5000 * b.count);
    tcpcore_connection connection = TCPCORE_CONNECTION_INIT;
    struct tcpcore_host_id id;
    done(tcpcore_connection_listen(&connection, &config, &RULES, now, next_block(&b), room));
    choose(&connection);
    done(tcpcore_host_admit(&b.host, &listener, &connection, src, SERVER, bytes, length, &id));
}

static void arrive(struct side *to, const struct tcpcore_host_sent *sent, const unsigned char *bytes)
{
    struct tcpcore_host_arrived arrived;
    struct tcpcore_arrive_report report;
    size_t length = (size_t)sent->length;
    done(tcpcore_host_arrive(&to->host, now, sent->from, sent->to, bytes, length, &arrived, &report));
    if (arrived.place == TCPCORE_PLACE_LISTENER) {
        admit(sent->from, bytes, length);
        done(tcpcore_host_arrive(&to->host, now, sent->from, sent->to, bytes, length, &arrived, &report));
    }
    need(arrived.place == TCPCORE_PLACE_END, "a segment is nobody's");
    reader = arrived.id;
    segments++;
}

/* All that one host has due goes to the other. */
static COUNTED void carry(struct side *from, struct side *to)
{
    static unsigned char segment[TCPCORE_EMIT_ROOM];
    struct tcpcore_host_sent sent;
    uint32_t answer;
    while ((answer = tcpcore_host_emit(&from->host, now, UINT64_MAX, segment, sizeof segment, &sent)) != TCPCORE_NOBODY) {
        if (answer == TCPCORE_NOT_DUE)
            continue;
        done(answer);
        arrive(to, &sent, segment);
    }
}

/* What a program calls before it waits: who is due is told, and *next is when it has to be called again. How many were due. */
static inline __attribute__((always_inline)) int tick(struct side *side, uint64_t *next)
{
    struct tcpcore_host_told told;
    int due = 0;
    while (tcpcore_host_timeout(&side->host, now, &told) == TCPCORE_DONE)
        due++;
    done(tcpcore_host_poll_at(&side->host, next));
    return due;
}

static COUNTED int idle_tick(struct side *side, uint64_t *next) { return tick(side, next); }
static COUNTED int due_tick(struct side *side, uint64_t *next) { return tick(side, next); }

static COUNTED void open_one(void)
{
    tcpcore_addr addr = {{10, 0, 0, (uint8_t)(1 + a.count / PORTS)}};
    tcpcore_config config = config_of(addr, (uint16_t)(FIRST_PORT + a.count % PORTS), 1000 * a.count);
    tcpcore_connection connection = TCPCORE_CONNECTION_INIT;
    done(tcpcore_connection_connect(&connection, &config, &RULES, SERVER, PORT, now, next_block(&a), room));
    choose(&connection);
    done(tcpcore_host_open(&a.host, &connection, &a.ids[a.count]));
    carry(&a, &b);
    carry(&b, &a);
    carry(&a, &b);
    carry(&b, &a);
    done(tcpcore_host_accept(&b.host, &listener, &b.ids[b.count]));
    a.count++;
    b.count++;
}

/* What the one has sent the other one reads, of the connection that a segment came to: the same. */
static void read_text(struct side *side, struct tcpcore_host_id id, const unsigned char *expected, unsigned char *text)
{
    size_t count;
    need(reader.number == id.number && reader.slot == id.slot, "a segment came to another connection");
    done(tcpcore_host_receive(&side->host, now, &reader, text, TEXT, &count));
    need(count == TEXT && memcmp(text, expected, TEXT) == 0, "other bytes came");
}

static void send_text(struct side *side, struct tcpcore_host_id id, const unsigned char *text)
{
    size_t count;
    done(tcpcore_host_send(&side->host, now, &id, text, TEXT, &count));
    need(count == TEXT, "text isn't taken");
}

static uint32_t drawn(uint32_t below)
{
    static uint64_t lot = 1;
    lot = lot * UINT64_C(6364136223846793005) + UINT64_C(1442695040888963407);
    return (uint32_t)((lot >> 32) * below >> 32);
}

static COUNTED void one_round(void)
{
    unsigned char text[TEXT], echo[TEXT], back[TEXT];
    uint64_t of_a, of_b;
    uint32_t at = drawn(a.count);
    for (size_t i = 0; i < TEXT; i++)
        text[i] = (unsigned char)(at + now + i);
    send_text(&a, a.ids[at], text);
    carry(&a, &b);
    read_text(&b, b.ids[at], text, echo);
    send_text(&b, b.ids[at], echo);
    carry(&b, &a);
    read_text(&a, a.ids[at], text, back);
    carry(&a, &b);
    /* A's acknowledgement waits, and B's retransmission timer runs. */
    need(idle_tick(&b, &of_b) + idle_tick(&a, &of_a) == 0, "somebody is due early");
    need(of_a == now + POLICY.ack_delay && of_b == now + RULES.least, "the first deadline is another");
    now = of_a;
    need(due_tick(&a, &of_a) == 1, "nobody, or more than one, is due");
    carry(&a, &b);
    carry(&b, &a);
    now += STEP;
}

static void rounds_of(unsigned long count)
{
    segments = 0;
    for (unsigned long at = 0; at < count; at++)
        one_round();
    need(segments == 3 * count, "a round isn't three segments");
}

static void open_to(unsigned long connections)
{
    while (a.count < connections) {
        open_one();
        now += STEP;
    }
}

int main(int count, char **words)
{
    if (count != 3)
        return fputs("hosts CONNECTIONS ROUNDS\n", stderr), 2;
    unsigned long connections = strtoul(words[1], NULL, 10), rounds = strtoul(words[2], NULL, 10);
    need(connections > 0, "no connections");
    tcpcore_config config = config_of(SERVER, PORT, 0);
    room = tcpcore_connection_room(&config);
    need(room <= TCPCORE_CONNECTION_MEMORY_RUNS(CAPACITY, CAPACITY, RUNS), "the constant is too small");
    begin(&a, connections, 1);
    begin(&b, connections, 1);
    done(tcpcore_host_listen(&b.host, SERVER, PORT, BACKLOG, &listener));
    /* Most openings aren't counted, since counting takes callgrind long. */
    open_to(connections > LAST ? connections - LAST : 0);
    CALLGRIND_START_INSTRUMENTATION;
    open_to(connections);
    CALLGRIND_DUMP_STATS;
    rounds_of(rounds);
    CALLGRIND_DUMP_STATS;
    rounds_of(rounds);
    CALLGRIND_DUMP_STATS;
    CALLGRIND_STOP_INSTRUMENTATION;
    done(tcpcore_host_free(&a.host));
    done(tcpcore_host_free(&b.host));
    printf("%lu connections, twice %lu rounds, %s\n", connections, rounds, tcpcore_build());
    return 0;
}
