/*
 * The test of what a connection in a host does as one alone does: two pairs of connections have the same traffic side by side, the first
 * alone, the second in hosts. Segments come vouched for, whose checksum is wrong then, or are summed; each goes out alone or as one, by its
 * name. Every answer, report, byte, status and time has to be what the connection alone has.
 */
#include "check.h"
#include "tcpcore.h"

#include <stdio.h>
#include <string.h>

enum { PAIRS = 2, ENDS = 2, CAPACITY = 1 << 16, WAITING = 64, ROUNDS = 40, STEPS = 600, LONGEST = 70000, PORT = 7 };

static const tcpcore_addr ADDRS[ENDS] = {{{10, 0, 0, 1}}, {{10, 0, 0, 2}}};
static const struct tcpcore_connection_rules RULES = TCPCORE_CONNECTION_RULES_DEFAULT;
static tcpcore_connection alone[ENDS];
static tcpcore_host hosts[ENDS];
static struct tcpcore_host_id ids[ENDS], listener;
static unsigned char blocks[PAIRS][ENDS][TCPCORE_CONNECTION_MEMORY(CAPACITY, CAPACITY)], tables[ENDS][TCPCORE_HOST_MEMORY(4, 4, 1, 4)];
static unsigned char recoveries[PAIRS][ENDS][TCPCORE_RECOVERY_MEMORY], text[CAPACITY], ours[LONGEST], theirs[LONGEST];
static uint64_t now;

/* Segments that are under way to an end: summed, or as one with the sum of the pseudo-header, which a device vouches for. */
static struct segment {
    size_t length;
    int is_vouched;
    unsigned char bytes[TCPCORE_TRAIN_ROOM];
} wire[ENDS][WAITING];
static size_t waiting[ENDS];

/* What the traffic has met. */
static unsigned long vouched, summed, together, single, expired, first_had_to_go, timed, woken;

static uint64_t word = 88172645463325252u;

static uint32_t any(uint32_t bound)
{
    word ^= word << 13;
    word ^= word >> 7;
    word ^= word << 17;
    return (uint32_t)((word >> 16) % bound);
}

static void same(const void *one, const void *other, size_t length) { CHECK(memcmp(one, other, length), 0); }

/* Both are in the same state. Where the host has a time for its connection it is the time of the one alone. */
static void same_state(int end)
{
    struct tcpcore_status one, other;
    uint64_t at, first;
    CHECK(tcpcore_connection_status(&alone[end], &one), TCPCORE_DONE);
    CHECK(tcpcore_host_status(&hosts[end], &ids[end], &other), TCPCORE_DONE);
    same(&one, &other, sizeof one);
    CHECK(tcpcore_connection_poll_at(&alone[end], &at), TCPCORE_DONE);
    CHECK(tcpcore_host_poll_at(&hosts[end], &first), TCPCORE_DONE);
    CHECK(first == TCPCORE_NEVER || first == at, 1);
    timed += first != TCPCORE_NEVER;
}

/* A segment comes to both; whether they have taken it. */
static int arrives(int end, const struct segment *segment)
{
    struct tcpcore_arrive_report one, other;
    struct tcpcore_host_arrived arrived;
    uint32_t answer = (segment->is_vouched ? tcpcore_connection_arrive_vouched : tcpcore_connection_arrive)(
        &alone[end], now, ADDRS[!end], ADDRS[end], segment->bytes, segment->length, &one);
    CHECK((segment->is_vouched ? tcpcore_host_arrive_vouched : tcpcore_host_arrive)(&hosts[end], now, ADDRS[!end], ADDRS[end],
                                                                                   segment->bytes, segment->length, &arrived, &other),
          answer);
    same(&one, &other, sizeof one);
    CHECK(arrived.place == TCPCORE_PLACE_END && arrived.id.number == ids[end].number && arrived.id.slot == ids[end].slot, 1);
    same_state(end);
    *(segment->is_vouched ? &vouched : &summed) += answer == TCPCORE_DONE;
    first_had_to_go += answer == TCPCORE_EMIT_FIRST;
    return answer != TCPCORE_EMIT_FIRST;
}

/* What is written goes on the wire, or is lost. */
static void goes(int end, size_t length, int is_vouched, uint32_t chance)
{
    if (waiting[!end] == WAITING || any(chance) == 0)
        return;
    struct segment *segment = &wire[!end][waiting[!end]++];
    segment->length = length;
    segment->is_vouched = is_vouched;
    memcpy(segment->bytes, ours, length);
}

/* Both emit one segment by itself. Half of them are vouched for, and have a wrong checksum then. Whether there was one. */
static int emits(int end, uint64_t window, uint32_t chance)
{
    struct tcpcore_connection_segment one, other;
    uint32_t answer = tcpcore_connection_emit(&alone[end], now, window, ours, sizeof ours, &one);
    CHECK(tcpcore_host_emit_by_id(&hosts[end], now, &ids[end], window, theirs, sizeof theirs, &other), answer);
    same(&one, &other, sizeof one);
    same(ours, theirs, sizeof ours);
    same_state(end);
    if (answer != TCPCORE_DONE)
        return 0;
    single++;
    int is_vouched = any(2) == 0;
    ours[16] ^= is_vouched ? 0x5a : 0, theirs[16] = ours[16];
    goes(end, (size_t)one.length, is_vouched, chance);
    return 1;
}

/* Both emit as one. It isn't cut: a device may hand it on whole. Whether there was any. */
static int emits_train(int end, uint64_t window, uint32_t chance)
{
    struct tcpcore_train one, other;
    size_t room = any(3) ? sizeof ours : TCPCORE_EMIT_ROOM + any(4000), most = any(3) ? SIZE_MAX : any(4);
    uint32_t answer = tcpcore_connection_emit_train(&alone[end], now, window, ours, room, most, &one);
    CHECK(tcpcore_host_emit_train(&hosts[end], now, &ids[end], window, theirs, room, most, &other), answer);
    same(&one, &other, sizeof one);
    same(ours, theirs, sizeof ours);
    same_state(end);
    if (answer != TCPCORE_DONE)
        return 0;
    *(one.segments > 1 ? &together : &single) += 1;
    goes(end, (size_t)one.whole.length, 1, chance);
    return 1;
}

static void emit_all(int end, uint32_t chance)
{
    uint64_t window = any(2) ? UINT64_MAX : 1 + any(20000);
    int whole = (int)any(2);
    while (whole ? emits_train(end, window, chance) : emits(end, window, chance))
        ;
}

/* Time goes on. What expires expires in both. */
static void passes(int end)
{
    uint32_t timer;
    uint64_t at;
    struct tcpcore_host_told told;
    CHECK(tcpcore_connection_poll_at(&alone[end], &at), TCPCORE_DONE);
    now += any(4) ? any(2000) : any(200000);
    if (any(8) == 0 && at != TCPCORE_NEVER && at > now)
        now = at;
    uint32_t answer = tcpcore_connection_timeout(&alone[end], now, &timer);
    uint32_t in_host = tcpcore_host_timeout(&hosts[end], now, &told);
    if (answer == TCPCORE_DONE) {
        CHECK(in_host == TCPCORE_DONE && told.place == TCPCORE_PLACE_END && told.id.number == ids[end].number, 1);
        CHECK(told.timer, timer);
        expired++;
    } else if (in_host == TCPCORE_DONE) {
        CHECK(told.timer, TCPCORE_TIMER_NONE); /* something waited for its time */
        woken++;
    }
    CHECK(tcpcore_host_timeout(&hosts[end], now, &told), TCPCORE_NOBODY);
    same_state(end);
    if (answer != TCPCORE_DONE || any(4) > 0)
        emit_all(end, 10); /* else the burst goes on, and what comes has to wait for it */
}

/* One of the segments that wait comes, mostly the first. */
static void one_arrives(int end)
{
    if (waiting[end] == 0)
        return;
    size_t which = any(5) ? 0 : any((uint32_t)waiting[end]);
    if (arrives(end, &wire[end][which]) && any(15) > 0)
        memmove(&wire[end][which], &wire[end][which + 1], (--waiting[end] - which) * sizeof **wire);
    if (any(3) == 0)
        emit_all(end, 10);
}

/* The user of an end sends, reads, or is done. */
static void uses(int end, int may_close)
{
    size_t one, other, length = any(any(4) ? 3000 : CAPACITY);
    uint32_t answer;
    switch (any(may_close ? 7 : 6)) {
    case 0:
    case 1:
        answer = tcpcore_connection_send(&alone[end], now, text, length, &one);
        CHECK(tcpcore_host_send(&hosts[end], now, &ids[end], text, length, &other), answer);
        CHECK(other, one);
        break;
    case 2:
    case 3:
        answer = tcpcore_connection_receive(&alone[end], now, ours, length, &one);
        CHECK(tcpcore_host_receive(&hosts[end], now, &ids[end], theirs, length, &other), answer);
        CHECK(other, one);
        same(ours, theirs, sizeof ours);
        break;
    case 4:
        CHECK(tcpcore_connection_acknowledge(&alone[end], now), TCPCORE_DONE);
        CHECK(tcpcore_host_acknowledge(&hosts[end], now, &ids[end]), TCPCORE_DONE);
        break;
    case 5:
        answer = tcpcore_connection_resend_first(&alone[end], now);
        CHECK(tcpcore_host_resend_first(&hosts[end], now, &ids[end]), answer);
        break;
    default:
        answer = tcpcore_connection_close(&alone[end], now);
        CHECK(tcpcore_host_close(&hosts[end], now, &ids[end]), answer);
    }
    same_state(end);
    emit_all(end, 10);
}

/* One end of both pairs, made alike, in half of the rounds with losses found by time; that in a host isn't in it yet. */
static void make(int end, tcpcore_connection *in_host, const struct tcpcore_policy *policy, uint32_t congestion)
{
    tcpcore_config config = TCPCORE_CONFIG_DEFAULT;
    config.addr = ADDRS[end], config.port = (uint16_t)(PORT + end), config.isn = any(UINT32_MAX);
    config.send_capacity = config.recv_capacity = CAPACITY;
    int recovers = any(2) == 0;
    alone[end] = *in_host = (tcpcore_connection)TCPCORE_CONNECTION_INIT;
    for (int pair = 0; pair < PAIRS; pair++) {
        tcpcore_connection *it = pair ? in_host : &alone[end];
        CHECK(end == 0 ? tcpcore_connection_connect(it, &config, &RULES, ADDRS[1], PORT + 1, now, blocks[pair][end], sizeof **blocks)
                       : tcpcore_connection_listen(it, &config, &RULES, now, blocks[pair][end], sizeof **blocks),
              TCPCORE_DONE);
        CHECK(tcpcore_connection_set_congestion(it, congestion), TCPCORE_DONE);
        CHECK(tcpcore_connection_set_policy(it, policy), TCPCORE_DONE);
        if (recovers)
            CHECK(tcpcore_connection_set_recovery(it, now, recoveries[pair][end], sizeof **recoveries), TCPCORE_DONE);
    }
}

/* The client's SYN has come to the listener's host, which admits a connection for it: then it comes again, with all else. */
static void open_both(const struct tcpcore_policy *policy, uint32_t congestion)
{
    struct tcpcore_host_arrived arrived;
    struct tcpcore_arrive_report report;
    for (int end = 0; end < ENDS; end++) {
        hosts[end] = (tcpcore_host)TCPCORE_HOST_INIT;
        waiting[end] = 0;
        CHECK(tcpcore_host_new(&hosts[end], 240000000, 0, tables[end], sizeof *tables), TCPCORE_DONE);
    }
    CHECK(tcpcore_host_listen(&hosts[1], ADDRS[1], PORT + 1, 1, &listener), TCPCORE_DONE);
    tcpcore_connection client, server;
    make(0, &client, policy, congestion);
    make(1, &server, policy, congestion);
    CHECK(tcpcore_host_open(&hosts[0], &client, &ids[0]), TCPCORE_DONE);
    CHECK(emits(0, UINT64_MAX, UINT32_MAX), 1);
    const struct segment *syn = &wire[1][0];
    CHECK((syn->is_vouched ? tcpcore_host_arrive_vouched : tcpcore_host_arrive)(&hosts[1], now, ADDRS[0], ADDRS[1], syn->bytes, syn->length,
                                                                                &arrived, &report),
          TCPCORE_DONE);
    CHECK(arrived.place == TCPCORE_PLACE_LISTENER && arrived.id.number == listener.number && report.rule == TCPCORE_RULE_NONE, 1);
    CHECK(tcpcore_host_admit(&hosts[1], &listener, &server, ADDRS[0], ADDRS[1], syn->bytes, syn->length, &ids[1]), TCPCORE_DONE);
}

/* Behind them: the name of what is gone finds nothing, and nothing is written. */
static void end_both(void)
{
    struct tcpcore_connection_segment segment;
    struct tcpcore_train train;
    for (int end = 0; end < ENDS; end++) {
        tcpcore_connection out = TCPCORE_CONNECTION_INIT;
        CHECK(tcpcore_host_remove(&hosts[end], &ids[end], &out), TCPCORE_DONE);
        memset(ours, 1, sizeof ours), memset(&segment, 1, sizeof segment), memset(&train, 1, sizeof train);
        memcpy(theirs, ours, sizeof theirs);
        CHECK(tcpcore_host_emit_by_id(&hosts[end], now, &ids[end], UINT64_MAX, theirs, sizeof theirs, &segment), TCPCORE_GONE);
        CHECK(tcpcore_host_emit_train(&hosts[end], now, &ids[end], UINT64_MAX, theirs, sizeof theirs, SIZE_MAX, &train), TCPCORE_GONE);
        CHECK(segment.length + segment.count + train.whole.length + train.segments, 0);
        same(ours, theirs, sizeof ours);
        CHECK(tcpcore_connection_free(&out), TCPCORE_DONE);
        CHECK(tcpcore_host_free(&hosts[end]), TCPCORE_DONE);
        CHECK(tcpcore_connection_free(&alone[end]), TCPCORE_DONE);
    }
}

int main(void)
{
    for (size_t i = 0; i < sizeof text; i++)
        text[i] = (unsigned char)(i * 7 + i / 251);
    for (int round = 0; round < ROUNDS; round++) {
        struct tcpcore_policy policy = {.ack_delay = any(2) ? 40000 : 0, .override_timeout = any(2) ? 200000 : TCPCORE_NEVER,
                                        .answer_interval = any(2) ? 500000 : 0, .nagle = any(2)};
        open_both(&policy, any(3));
        for (int step = 0; step < STEPS; step++) {
            int end = (int)any(ENDS);
            switch (any(4)) {
            case 0:
                uses(end, step > STEPS - 100);
                break;
            case 1:
                passes(end);
                break;
            default:
                one_arrives(end);
            }
        }
        end_both();
    }
    /* The traffic has met what the calls are for. */
    CHECK(vouched > 1000 && summed > 1000 && together > 200 && single > 1000 && expired > 100 && first_had_to_go > 20, 1);
    CHECK(timed > 10000 && woken > 100, 1);
    printf("host_alone: a connection in a host does what one alone does\n");
    return checks > 100000 ? 0 : 1;
}
