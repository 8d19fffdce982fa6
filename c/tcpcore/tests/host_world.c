/*
 * Connections do in hosts what they do by themselves: worlds of many connections between two sides, over a wire that loses, and delays by
 * some jitter. In one run each side has a host; in the other each connection stands alone, and is called when its host would call it. Each
 * sends the same segments, byte by byte, at the same times, and its user reads the same bytes. Times are microseconds.
 */
#include "check.h"
#include "tcpcore.h"

#include <string.h>

enum { MS = 1000, STEP = 10 * MS, STEPS = 1500, MOST = 12, TEXT = 30000, CAPACITY = 8192, PORT = 80, FLYING = 4096, SIDES = 2 };

static const tcpcore_addr ADDRESSES[SIDES] = {{{10, 0, 0, 1}}, {{10, 0, 0, 2}}};
static unsigned char blocks[SIDES][MOST][TCPCORE_CONNECTION_MEMORY(CAPACITY, CAPACITY)], recoveries[SIDES][MOST][TCPCORE_RECOVERY_MEMORY];
static unsigned char tables[SIDES][TCPCORE_HOST_MEMORY(MOST, 0, 1, MOST)];
static tcpcore_host hosts[SIDES];

/* A connection on one side: by itself, or by its name in the side's host. */
static struct end {
    tcpcore_connection alone;
    struct tcpcore_host_id id;
    int is_there, is_called;
    size_t sent, read;
    uint64_t told; /* of all that it sent and its user read, and when */
} ends[SIDES][MOST];

static struct flying {
    uint64_t at;
    size_t side, index, length;
    unsigned char bytes[TCPCORE_EMIT_ROOM];
} flying[FLYING];
static size_t first, behind;

static uint64_t mixed(uint64_t a, uint64_t b)
{
    uint64_t x = (a + 0x9e3779b97f4a7c15u) ^ (b * 0xbf58476d1ce4e5b9u);
    x = (x ^ (x >> 30)) * 0xbf58476d1ce4e5b9u;
    x = (x ^ (x >> 27)) * 0x94d049bb133111ebu;
    return x ^ (x >> 31);
}

static void tells(struct end *end, uint64_t now, const unsigned char *bytes, size_t length)
{
    end->told = mixed(end->told, now);
    for (size_t i = 0; i < length; i++)
        end->told = mixed(end->told, bytes[i]);
}

/* A connection's choices go by its number: a congestion window, a recovery, and a policy. */
static void chooses(tcpcore_connection *connection, size_t side, size_t index)
{
    struct tcpcore_policy policy = TCPCORE_POLICY_DEFAULT;
    CHECK(tcpcore_connection_set_congestion(connection, (uint32_t)(index % 3)), TCPCORE_DONE);
    if (index % 4 < 2)
        CHECK(tcpcore_connection_set_recovery(connection, 0, recoveries[side][index], sizeof **recoveries), TCPCORE_DONE);
    if (index % 2 == 1)
        CHECK(tcpcore_connection_set_policy(connection, &policy), TCPCORE_DONE);
}

static void makes(tcpcore_connection *connection, size_t side, size_t index, uint64_t now)
{
    static const struct tcpcore_connection_rules rules = TCPCORE_CONNECTION_RULES_DEFAULT;
    tcpcore_config config = TCPCORE_CONFIG_DEFAULT;
    config.addr = ADDRESSES[side];
    config.port = side == 0 ? (uint16_t)(1000 + index) : PORT;
    config.isn = (uint32_t)(index * 77777 + side);
    config.mss = 500;
    config.send_capacity = config.recv_capacity = CAPACITY;
    unsigned char *block = blocks[side][index];
    if (side == 0)
        CHECK(tcpcore_connection_connect(connection, &config, &rules, ADDRESSES[1], PORT, now, block, sizeof **blocks), TCPCORE_DONE);
    else
        CHECK(tcpcore_connection_listen(connection, &config, &rules, now, block, sizeof **blocks), TCPCORE_DONE);
    chooses(connection, side, index);
}

/* It goes onto the wire, or is lost: by the world, the connection, and how many it has sent. */
static void flies(uint64_t world, size_t side, size_t index, uint64_t now, const unsigned char *bytes, size_t length)
{
    struct end *end = &ends[side][index];
    tells(end, now, bytes, length);
    uint64_t lot = mixed(mixed(world, side * MOST + index), end->sent++);
    if (lot % 100 < world % 8)
        return;
    CHECK(behind - first < FLYING, 1);
    struct flying *here = &flying[behind++ % FLYING];
    *here = (struct flying){.at = now + (2 + (lot >> 32) % 5) * STEP, .side = 1 - side, .index = index, .length = length};
    memcpy(here->bytes, bytes, length);
}

static void emits_in_host(uint64_t world, size_t side, uint64_t now)
{
    unsigned char out[TCPCORE_EMIT_ROOM];
    struct tcpcore_host_sent sent;
    uint32_t answer;
    while ((answer = tcpcore_host_emit(&hosts[side], now, UINT64_MAX, out, sizeof out, &sent)) != TCPCORE_NOBODY) {
        if (answer == TCPCORE_NOT_DUE)
            continue;
        CHECK(answer, TCPCORE_DONE);
        uint16_t port = (uint16_t)(side == 0 ? out[0] * 256 + out[1] : out[2] * 256 + out[3]);
        flies(world, side, port - 1000u, now, out, (size_t)sent.length);
    }
}

static void emits_alone(uint64_t world, size_t side, size_t index, uint64_t now)
{
    unsigned char out[TCPCORE_EMIT_ROOM];
    struct tcpcore_connection_segment segment;
    while (tcpcore_connection_emit(&ends[side][index].alone, now, UINT64_MAX, out, sizeof out, &segment) == TCPCORE_DONE)
        flies(world, side, index, now, out, (size_t)segment.length);
    ends[side][index].is_called = 0;
}

static uint32_t arrives(int in_hosts, const struct flying *here, uint64_t now)
{
    struct end *end = &ends[here->side][here->index];
    struct tcpcore_host_arrived arrived;
    struct tcpcore_arrive_report report;
    const tcpcore_addr *src = &ADDRESSES[1 - here->side], *dst = &ADDRESSES[here->side];
    if (!end->is_there) {
        makes(&end->alone, here->side, here->index, now);
        end->is_there = 1;
        if (in_hosts) {
            tcpcore_host *host = &hosts[here->side];
            tcpcore_host_arrive(host, now, *src, *dst, here->bytes, here->length, &arrived, &report);
            CHECK(arrived.place, TCPCORE_PLACE_LISTENER);
            CHECK(tcpcore_host_admit(host, &arrived.id, &end->alone, *src, *dst, here->bytes, here->length, &end->id), TCPCORE_DONE);
        }
    }
    end->is_called = 1;
    if (!in_hosts)
        return tcpcore_connection_arrive(&end->alone, now, *src, *dst, here->bytes, here->length, &report);
    uint32_t answer = tcpcore_host_arrive(&hosts[here->side], now, *src, *dst, here->bytes, here->length, &arrived, &report);
    CHECK(arrived.place == TCPCORE_PLACE_END && arrived.id.slot == end->id.slot && arrived.id.number == end->id.number, 1);
    return answer;
}

/* Both users send a text and close behind it, and read all that comes. */
static void users_call(int in_hosts, size_t side, size_t index, uint64_t now, size_t *written)
{
    struct end *end = &ends[side][index];
    unsigned char text[1000], out[3000];
    size_t count = 0, more = TEXT - *written < sizeof text ? TEXT - *written : sizeof text;
    for (size_t i = 0; i < more; i++)
        text[i] = (unsigned char)mixed(side * MOST + index, *written + i);
    uint32_t answer = in_hosts ? tcpcore_host_send(&hosts[side], now, &end->id, text, more, &count)
                               : tcpcore_connection_send(&end->alone, now, text, more, &count);
    *written += count;
    if (*written == TEXT && answer == TCPCORE_DONE) {
        if (in_hosts)
            tcpcore_host_close(&hosts[side], now, &end->id);
        else
            tcpcore_connection_close(&end->alone, now);
    }
    answer = in_hosts ? tcpcore_host_receive(&hosts[side], now, &end->id, out, sizeof out, &count)
                      : tcpcore_connection_receive(&end->alone, now, out, sizeof out, &count);
    for (size_t i = 0; i < count; i++)
        CHECK(out[i], (unsigned char)mixed((1 - side) * MOST + index, end->read + i));
    end->read += count;
    tells(end, now + answer, out, count);
    end->is_called = 1;
}

static void times_out(int in_hosts, size_t side, uint64_t now)
{
    struct tcpcore_host_told told;
    uint32_t timer;
    if (in_hosts) {
        while (tcpcore_host_timeout(&hosts[side], now, &told) == TCPCORE_DONE)
            CHECK(told.place, TCPCORE_PLACE_END);
        return;
    }
    for (size_t index = 0; index < MOST; index++) {
        uint64_t at;
        if (ends[side][index].is_there && tcpcore_connection_poll_at(&ends[side][index].alone, &at) == TCPCORE_DONE && at <= now) {
            tcpcore_connection_timeout(&ends[side][index].alone, now, &timer);
            ends[side][index].is_called = 1;
        }
    }
}

/* What has come by now, in the order in which it was sent: what would come before waits for a step more. */
static void delivers(int in_hosts, uint64_t world, uint64_t now)
{
    for (size_t at = first; at < behind; at++) {
        struct flying *here = &flying[at % FLYING];
        if (here->length == 0 || here->at > now)
            continue;
        if (arrives(in_hosts, here, now) == TCPCORE_EMIT_FIRST) {
            if (in_hosts)
                emits_in_host(world, here->side, now);
            else
                emits_alone(world, here->side, here->index, now);
            CHECK(arrives(in_hosts, here, now) == TCPCORE_EMIT_FIRST, 0);
        }
        here->length = 0;
    }
    while (first < behind && flying[first % FLYING].length == 0)
        first++;
}

static void one_step(int in_hosts, uint64_t world, uint64_t now, size_t written[SIDES][MOST])
{
    delivers(in_hosts, world, now);
    for (size_t side = 0; side < SIDES; side++) {
        for (size_t index = 0; index < MOST; index++)
            if (ends[side][index].is_there && now >= index * 3 * STEP)
                users_call(in_hosts, side, index, now, &written[side][index]);
        times_out(in_hosts, side, now);
        if (in_hosts)
            emits_in_host(world, side, now);
        for (size_t index = 0; !in_hosts && index < MOST; index++)
            if (ends[side][index].is_called)
                emits_alone(world, side, index, now);
    }
}

static void begins(int in_hosts)
{
    memset(ends, 0, sizeof ends);
    first = behind = 0;
    for (size_t side = 0; in_hosts && side < SIDES; side++) {
        struct tcpcore_host_id id;
        memset(&hosts[side], 0, sizeof *hosts);
        CHECK(tcpcore_host_new(&hosts[side], 240 * 1000 * (uint64_t)MS, 10 * MS, tables[side], sizeof *tables), TCPCORE_DONE);
        if (side == 1)
            CHECK(tcpcore_host_listen(&hosts[side], ADDRESSES[side], PORT, MOST, &id), TCPCORE_DONE);
    }
    for (size_t index = 0; index < MOST; index++) {
        struct end *end = &ends[0][index];
        makes(&end->alone, 0, index, 0);
        end->is_there = end->is_called = 1;
        if (in_hosts)
            CHECK(tcpcore_host_open(&hosts[0], &end->alone, &end->id), TCPCORE_DONE);
    }
}

static void runs(int in_hosts, uint64_t world, uint64_t told[SIDES][MOST])
{
    static size_t written[SIDES][MOST];
    memset(written, 0, sizeof written);
    begins(in_hosts);
    for (uint64_t step = 0; step < STEPS; step++)
        one_step(in_hosts, world, step * STEP, written);
    for (size_t side = 0; side < SIDES; side++) {
        for (size_t index = 0; index < MOST; index++) {
            CHECK(ends[side][index].read, TEXT);
            told[side][index] = ends[side][index].told;
            if (!in_hosts)
                CHECK(tcpcore_connection_free(&ends[side][index].alone), TCPCORE_DONE);
        }
        if (in_hosts)
            CHECK(tcpcore_host_free(&hosts[side]), TCPCORE_DONE);
    }
}

int main(void)
{
    static uint64_t in_hosts[SIDES][MOST], alone[SIDES][MOST];
    for (uint64_t world = 0; world < 8; world++) {
        runs(1, world, in_hosts);
        runs(0, world, alone);
        for (size_t side = 0; side < SIDES; side++)
            for (size_t index = 0; index < MOST; index++)
                CHECK(in_hosts[side][index], alone[side][index]);
    }
    printf("host_world: in hosts each connection sends and hands out what it does by itself\n");
    return checks > 1000 ? 0 : 1;
}
