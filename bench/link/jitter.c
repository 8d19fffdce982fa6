/*
 * jitter RUNS MSS BYTES WINDOW RATE TRIP JITTER LOSS SEED: one transfer between two connections with CUBIC's window, losses found by time
 * and the default policy (tcpcore.h), over a simulated link in one process. It prints how many segments with text were sent again, how many
 * were sent in all, Mbit/s of text from the SYN to the last byte that was read, and the most runs that the path made: those of all that had
 * arrived out of order, whether it was kept or not. It fails where the bytes that came aren't those that were sent.
 * - RUNS: the runs of each end (0: the library's default); MSS and BYTES of text; WINDOW: the bytes of each buffer, at most 1,048,576.
 * - RATE: of the link each way, in Mbit/s; TRIP: of the round trip without a load, in milliseconds.
 * - JITTER: each segment takes up to so many milliseconds more, drawn for it alone, so that one that is sent later may arrive earlier.
 * - LOSS: percent of the segments, each way; SEED: of what is drawn.
 * jitter memory RUNS: the bytes of such a connection's block beside its buffers.
 */
#include "link.h"
#include "tcpcore.h"

#include <stdio.h>
#include <stdlib.h>
#include <string.h>

/* A connection, the direction of the link that leads to it, and when it has to be called. */
struct side {
    tcpcore_connection connection;
    tcpcore_addr addr;
    struct link link;
    uint64_t next;
    uint8_t recovery[TCPCORE_RECOVERY_MEMORY];
};

/* What the words say of the link and of the text. */
static double rate, trip, jitter, loss;
static uint64_t total, window;

static struct side sides[2]; /* the sender, and the receiver */
static uint64_t now, given, got, segments, resent, highest;

/* What has arrived: a mark for each byte, how many there are in order, and the runs behind a gap, now and at most. */
static uint8_t *arrived;
static uint64_t in_order, made, most_made;

/* Counts a segment that leaves: it is sent again where it begins before the end of all that was sent. */
static void count(const uint8_t *segment, size_t length)
{
    uint64_t first;
    size_t size = text_of(segment, length, highest, &first);
    segments += size > 0;
    resent += size > 0 && first < highest;
    if (first + size > highest && size > 0)
        highest = first + size;
}

/* A byte arrives that hadn't: it joins what lies beside it, and with the next one in order all that follows without a gap. */
static void note_byte(uint64_t at)
{
    arrived[at] = 1;
    made -= arrived[at + 1];
    if (at > in_order)
        made += 1 - arrived[at - 1];
    while (arrived[in_order])
        in_order++;
}

/* A segment arrives. */
static void note(const uint8_t *segment, size_t length)
{
    uint64_t first;
    size_t size = text_of(segment, length, highest, &first);
    for (uint64_t at = first; at < first + size; at++)
        if (!arrived[at])
            note_byte(at);
    most_made = made > most_made ? made : most_made;
}

/* A segment leaves once those before it have left. */
static void carry(struct link *link, const uint8_t *segment, size_t length)
{
    uint64_t left = leave(link, now, length, rate);
    if (chance() * 100 >= loss)
        push(link, left + (uint64_t)((trip / 2 + chance() * jitter) * (double)MILLISECOND), segment, length);
}

/* The time that the connections are told. */
static uint64_t micros(void) { return now / 1000; }

static void emit(int at)
{
    uint8_t bytes[TCPCORE_EMIT_ROOM];
    struct tcpcore_connection_segment segment;
    while (tcpcore_connection_emit(&sides[at].connection, micros(), UINT64_MAX, bytes, sizeof bytes, &segment) == TCPCORE_DONE) {
        if (at == 0)
            count(bytes, (size_t)segment.length);
        carry(&sides[1 - at].link, bytes, (size_t)segment.length);
    }
}

/* All that has come by now arrives. */
static void arrive(int at)
{
    struct side *side = sides + at;
    while (next_arrival(&side->link) <= now) {
        struct packet *packet = pop(&side->link);
        struct tcpcore_arrive_report report;
        if (at == 1)
            note(packet->bytes, packet->length);
        while (tcpcore_connection_arrive(&side->connection, micros(), sides[1 - at].addr, side->addr, packet->bytes, packet->length,
                                         &report) == TCPCORE_EMIT_FIRST)
            emit(at);
        free(packet);
        if (report.at_once)
            emit(at);
    }
}

/* The sender's user offers what is left, and the receiver's reads all that is there. */
static void use(int at)
{
    static uint8_t read_bytes[CHUNK];
    tcpcore_connection *connection = &sides[at].connection;
    size_t size = CHUNK;
    while (at == 0 && given < total && size > 0) {
        size_t left = total - given < CHUNK ? (size_t)(total - given) : CHUNK;
        if (tcpcore_connection_send(connection, micros(), text + given % PERIOD, left, &size) != TCPCORE_DONE)
            return;
        given += size;
    }
    while (at == 1 && tcpcore_connection_receive(connection, micros(), read_bytes, CHUNK, &size) == TCPCORE_DONE && size > 0) {
        if (got + size > given || memcmp(read_bytes, text + got % PERIOD, size) != 0)
            fail("what came isn't what was sent");
        got += size;
    }
}

/* One turn of a side's loop, as tcpcore.h says. */
static void turn(int at)
{
    uint32_t timer;
    arrive(at);
    use(at);
    emit(at);
    while (tcpcore_connection_tick(&sides[at].connection, micros(), &timer, &sides[at].next) == TCPCORE_DONE)
        emit(at);
}

/* To the next arrival or deadline. */
static void pass_time(void)
{
    uint64_t next = UINT64_MAX;
    for (int at = 0; at < 2; at++) {
        uint64_t arrival = next_arrival(&sides[at].link), deadline = sides[at].next < HOUR ? 1000 * sides[at].next : UINT64_MAX;
        next = arrival < next ? arrival : next;
        next = deadline < next ? deadline : next;
    }
    if (next <= now || next > HOUR)
        fail("the transfer doesn't end");
    now = next;
}

static tcpcore_config config_of(uint8_t last, unsigned runs, uint16_t mss)
{
    tcpcore_config config = {.addr = {{10, 0, 0, last}}, .port = last, .mss = mss, .isn = ISN, .send_capacity = window,
                             .recv_capacity = window, .limit = TCPCORE_LIMIT, .window_shift = TCPCORE_LEAST_SHIFT(window),
                             .scales = 1, .sack = 1, .runs = (uint16_t)runs};
    return config;
}

static void make(int at, unsigned runs, uint16_t mss)
{
    struct side *side = sides + at;
    tcpcore_config config = config_of((uint8_t)(1 + at), runs, mss);
    struct tcpcore_connection_rules rules = TCPCORE_CONNECTION_RULES_DEFAULT;
    struct tcpcore_policy policy = TCPCORE_POLICY_DEFAULT;
    tcpcore_connection *connection = &side->connection;
    tcpcore_addr peer = {{10, 0, 0, (uint8_t)(2 - at)}};
    size_t room = tcpcore_connection_room(&config);
    void *block = malloc(room);
    side->addr = config.addr;
    if (!block ||
        (at == 1 ? tcpcore_connection_listen(connection, &config, &rules, micros(), block, room)
                 : tcpcore_connection_connect(connection, &config, &rules, peer, (uint16_t)(2 - at), micros(), block, room)) ||
        tcpcore_connection_set_congestion(connection, TCPCORE_CONGESTION_CUBIC) ||
        tcpcore_connection_set_recovery(connection, micros(), side->recovery, sizeof side->recovery) ||
        tcpcore_connection_set_policy(connection, &policy))
        fail("no connection");
}

static void transfer(unsigned runs, uint16_t mss)
{
    now = MILLISECOND;
    make(0, runs, mss);
    make(1, runs, mss);
    for (;;) {
        turn(0);
        turn(1);
        if (got == total)
            break;
        pass_time();
    }
    printf("%llu %llu %.1f %llu\n", (unsigned long long)resent, (unsigned long long)segments,
           (double)total * 8000 / (double)(now - MILLISECOND), (unsigned long long)most_made);
}

int main(int words, char **word)
{
    if (words == 3 && strcmp(word[1], "memory") == 0) {
        window = 16;
        tcpcore_config config = config_of(1, (unsigned)atoi(word[2]), 1460);
        printf("%zu\n", tcpcore_connection_room(&config) - 2 * 16);
        return 0;
    }
    if (words != 10)
        fail("wants RUNS MSS BYTES WINDOW RATE TRIP JITTER LOSS SEED, or memory RUNS");
    total = strtoull(word[3], NULL, 10);
    window = strtoull(word[4], NULL, 10);
    rate = atof(word[5]);
    trip = atof(word[6]);
    jitter = atof(word[7]);
    loss = atof(word[8]);
    begin(strtoull(word[9], NULL, 10));
    arrived = calloc(total + 1, 1); /* and behind the last byte none */
    if (!arrived)
        fail("no memory");
    transfer((unsigned)atoi(word[1]), (uint16_t)atoi(word[2]));
    return 0;
}
