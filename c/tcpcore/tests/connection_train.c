/*
 * The test of a connection's segments that are emitted as one: two pairs of connections have the same traffic side by side, the first by
 * tcpcore_connection_emit, the second by tcpcore_connection_emit_train. What it writes is cut by device.h. Each piece has to be what
 * tcpcore_connection_emit writes of the first pair, and every status and time the same behind them.
 */
#include "check.h"
#include "device.h"
#include "tcpcore.h"

#include <string.h>

enum { PAIRS = 2, ENDS = 2, CAPACITY = 1 << 18, WAITING = 64, ROUNDS = 60, STEPS = 500, LONGEST = 70000, CANARY = 0x5a };

static const tcpcore_addr ADDRS[ENDS] = {{{10, 0, 0, 1}}, {{10, 0, 0, 2}}};
static tcpcore_connection ends[PAIRS][ENDS];
static unsigned char blocks[PAIRS][ENDS][TCPCORE_CONNECTION_MEMORY(CAPACITY, CAPACITY)];
static unsigned char text[CAPACITY], whole[LONGEST];
static uint64_t now;

/* Segments that are under way to an end. */
static struct segment {
    tcpcore_addr to;
    size_t length;
    unsigned char bytes[TCPCORE_EMIT_ROOM];
} wire[ENDS][WAITING];
static size_t waiting[ENDS];

/* What the traffic has met: several segments as one, held back by the window, with blocks; what went alone, by its kind; what expired. */
static unsigned long together, held, with_blocks, alone[TCPCORE_KIND_ACKNOWLEDGEMENT + 1], expired[4];

static uint64_t word = 88172645463325252u;

static uint32_t any(uint32_t bound)
{
    word ^= word << 13;
    word ^= word >> 7;
    word ^= word << 17;
    return (uint32_t)((word >> 16) % bound);
}

static struct tcpcore_status status_of(int pair, int end)
{
    struct tcpcore_status status;
    CHECK(tcpcore_connection_status(&ends[pair][end], &status), TCPCORE_DONE);
    return status;
}

/* Both pairs are in the same state, as far as a connection says. */
static void same_states(void)
{
    for (int end = 0; end < ENDS; end++) {
        struct tcpcore_status status[PAIRS];
        uint64_t at[PAIRS];
        for (int pair = 0; pair < PAIRS; pair++) {
            status[pair] = status_of(pair, end);
            CHECK(tcpcore_connection_poll_at(&ends[pair][end], &at[pair]), TCPCORE_DONE);
        }
        CHECK(memcmp(&status[0], &status[1], sizeof *status), 0);
        CHECK(at[1] == at[0], 1);
    }
}

/* What goes out is as the report says, with the sum of the pseudo-header, and nothing behind it. */
static void looks_right(int end, const struct tcpcore_train *train, size_t room, size_t most)
{
    size_t length = (size_t)train->whole.length;
    for (size_t i = length; i < sizeof whole; i++)
        if (whole[i] != CANARY)
            CHECK(i, -1);
    CHECK(train->header, (whole[12] >> 4) * 4);
    CHECK(length, train->header + train->whole.count);
    CHECK(length <= room && length <= TCPCORE_TRAIN_ROOM, 1);
    CHECK(train->segments >= 1 && (train->segments == 1 || train->segments <= most), 1);
    CHECK(get16(whole + 16), pseudo(ADDRS[end], train->whole.to, length));
    for (size_t i = 0; i < sizeof train->reserved / sizeof *train->reserved; i++)
        CHECK(train->reserved[i], 0);
}

/* The second pair's end emits as one, the first one's as often as that says; each piece of it is the same, and may be lost. Answers how
   many went. */
static uint64_t emit_train(int end, uint64_t window, size_t room, size_t most, uint32_t chance)
{
    struct tcpcore_connection_segment one;
    struct tcpcore_train train;
    struct segment piece, old;
    memset(&train, 7, sizeof train);
    memset(whole, CANARY, sizeof whole);
    uint32_t answer = tcpcore_connection_emit_train(&ends[1][end], now, window, whole, room, most, &train);
    if (answer != TCPCORE_DONE) {
        CHECK(answer, TCPCORE_NOT_DUE);
        CHECK(tcpcore_connection_emit(&ends[0][end], now, window, old.bytes, sizeof old.bytes, &one), TCPCORE_NOT_DUE);
        CHECK(train.whole.length + train.header + train.each + train.segments, 0);
        CHECK(whole[0], CANARY);
        same_states();
        return 0;
    }
    looks_right(end, &train, room, most);
    if (train.segments > 1)
        together++, with_blocks += train.header > 20;
    else
        alone[train.whole.kind]++;
    uint64_t position = train.whole.position;
    piece.to = train.whole.to;
    for (size_t i = 0; i < train.segments; i++) {
        piece.length = cut_piece(whole, (size_t)train.whole.length, (size_t)train.each, i, ADDRS[end], piece.to, piece.bytes);
        CHECK(tcpcore_connection_emit(&ends[0][end], now, window, old.bytes, sizeof old.bytes, &one), TCPCORE_DONE);
        CHECK(piece.length, one.length);
        CHECK(memcmp(piece.bytes, old.bytes, piece.length), 0);
        CHECK(memcmp(&piece.to, &one.to, sizeof one.to), 0);
        CHECK(one.position, position);
        position += one.count;
        if (waiting[!end] < WAITING && any(chance) > 0)
            wire[!end][waiting[!end]++] = piece;
    }
    same_states();
    return train.segments;
}

/* The first of the segments that wait comes, to both pairs, or another one does. */
static void arrive_some(int end)
{
    struct tcpcore_arrive_report reports[PAIRS];
    uint32_t answers[PAIRS];
    if (waiting[end] == 0)
        return;
    size_t which = any(4) ? 0 : any((uint32_t)waiting[end]);
    struct segment segment = wire[end][which];
    for (int pair = 0; pair < PAIRS; pair++)
        answers[pair] = tcpcore_connection_arrive(&ends[pair][end], now, ADDRS[!end], segment.to, segment.bytes, segment.length, &reports[pair]);
    CHECK(answers[1], answers[0]);
    CHECK(memcmp(&reports[0], &reports[1], sizeof *reports), 0);
    if (any(15) > 0 && answers[0] != TCPCORE_EMIT_FIRST)
        memmove(&wire[end][which], &wire[end][which + 1], (--waiting[end] - which) * sizeof segment);
}

/* Time goes on, and what has expired is the same. */
static void pass_time(int end)
{
    uint32_t timers[PAIRS], answers[PAIRS];
    uint64_t at;
    CHECK(tcpcore_connection_poll_at(&ends[0][end], &at), TCPCORE_DONE);
    now += any(2) ? any(200000) : any(2000);
    if (any(6) == 0 && at != TCPCORE_NEVER && at > now)
        now = at;
    for (int pair = 0; pair < PAIRS; pair++)
        answers[pair] = tcpcore_connection_timeout(&ends[pair][end], now, &timers[pair]);
    CHECK(answers[1], answers[0]);
    CHECK(timers[1], timers[0]);
    if (answers[0] == TCPCORE_DONE)
        expired[timers[0]]++;
}

/* A call that both pairs make alike. */
static void call(int end)
{
    static unsigned char read[CAPACITY];
    uint32_t answers[PAIRS], which = any(200);
    size_t length = any(any(2) ? 100000 : 3000), count[PAIRS] = {0, 0};
    for (int pair = 0; pair < PAIRS; pair++) {
        tcpcore_connection *it = &ends[pair][end];
        answers[pair] = which < 110 ? tcpcore_connection_send(it, now, text + length, length, &count[pair])
                        : which < 180 ? tcpcore_connection_receive(it, now, read, length, &count[pair])
                        : which < 190 ? tcpcore_connection_acknowledge(it, now)
                        : which < 199 ? tcpcore_connection_resend_first(it, now)
                                      : tcpcore_connection_close(it, now);
    }
    CHECK(answers[1], answers[0]);
    CHECK(count[1], count[0]);
}

/* A connection as its parts of a config say, in both pairs. */
struct choice {
    uint16_t mss;
    uint64_t send, receive;
    uint8_t shift, scales, sack;
};

static void make(int end, const struct choice *choice)
{
    struct tcpcore_connection_rules rules = TCPCORE_CONNECTION_RULES_DEFAULT;
    /* So that each round trip that is measured shows in the time of the next expiry. */
    rules.least = 1000;
    tcpcore_config config = {.addr = ADDRS[end], .port = (uint16_t)(7 + end), .mss = choice->mss, .isn = any(UINT32_MAX),
                             .send_capacity = choice->send, .recv_capacity = choice->receive, .limit = TCPCORE_LIMIT,
                             .window_shift = choice->shift, .scales = choice->scales, .sack = choice->sack};
    waiting[end] = 0;
    for (int pair = 0; pair < PAIRS; pair++)
        CHECK(end == 0 ? tcpcore_connection_connect(&ends[pair][0], &config, &rules, ADDRS[1], 8, now, blocks[pair][0], sizeof **blocks)
                       : tcpcore_connection_listen(&ends[pair][1], &config, &rules, now, blocks[pair][1], sizeof **blocks),
              TCPCORE_DONE);
}

static void free_all(void)
{
    for (int pair = 0; pair < PAIRS; pair++)
        for (int end = 0; end < ENDS; end++)
            CHECK(tcpcore_connection_free(&ends[pair][end]), TCPCORE_DONE);
}

/* All that is due of one end goes to the other, in pieces. */
static void carry_all(int end)
{
    struct tcpcore_arrive_report report;
    while (emit_train(end, UINT64_MAX, sizeof whole, SIZE_MAX, UINT32_MAX) > 0)
        ;
    for (size_t i = 0; i < waiting[!end]; i++)
        for (int pair = 0; pair < PAIRS; pair++) {
            const struct segment *it = &wire[!end][i];
            CHECK(tcpcore_connection_arrive(&ends[pair][!end], now, ADDRS[end], it->to, it->bytes, it->length, &report), TCPCORE_DONE);
        }
    waiting[!end] = 0;
}

static void send_both(int end, size_t length)
{
    for (int pair = 0; pair < PAIRS; pair++) {
        size_t taken;
        CHECK(tcpcore_connection_send(&ends[pair][end], now, text, length, &taken), TCPCORE_DONE);
        CHECK(taken, length);
    }
}

/* Two open pairs, whose segments are of 1,460 bytes, and which have so much text queued. */
static void open_with(size_t length)
{
    struct choice choice = {1460, CAPACITY, CAPACITY, 3, 1, 1};
    for (int end = ENDS; end-- > 0;)
        make(end, &choice);
    for (int turn = 0; turn < 3; turn++)
        carry_all(turn % 2);
    send_both(0, length);
}

/* What goes as one of so much text, with so much in flight before, by window and `most`: how many segments, and bytes of text. */
static const struct trial {
    size_t flight, length;
    uint64_t window;
    size_t most;
    uint64_t segments, count;
} TRIALS[] = {
    /* The window has room for ten segments; for one byte less than that; for all that is queued, the last of which is short. */
    {0, 100000, 14600, 1000, 10, 14600},
    {0, 100000, 14599, 1000, 9, 13140},
    {0, 10000, 14600, 1000, 7, 10000},
    {0, 10000, 10000, 1000, 7, 10000},
    {0, 10000, 9999, 1000, 6, 8760},
    /* What is in flight counts. */
    {4380, 100000, 14600, 1000, 7, 10220},
    {4380, 100000, 14599, 1000, 6, 8760},
    {4380, 2000, 6380, 1000, 2, 2000},
    {4380, 2000, 6379, 1000, 1, 1460},
    {4380, 1460, 5840, 1000, 1, 1460},
    {4380, 1460, 5839, 1000, 0, 0},
    {4380, 100000, 4380, 1000, 0, 0},
    {4380, 100000, 0, 1000, 0, 0},
    /* The first goes, however small the window is, where nothing is in flight; and alone. */
    {0, 100000, 0, 1000, 1, 1460},
    {0, 100000, 1459, 1000, 1, 1460},
    {0, 100000, 2919, 1000, 1, 1460},
    {0, 100000, 2920, 1000, 2, 2920},
    /* `most` does, of which 0 is 1. */
    {0, 100000, 14600, 4, 4, 5840},
    {0, 100000, 14600, 0, 1, 1460},
    {0, 100000, UINT64_MAX, 1, 1, 1460},
    {0, 100000, UINT64_MAX, 1000, 44, 64240},
};

static void try_each(void)
{
    for (size_t i = 0; i < sizeof TRIALS / sizeof *TRIALS; i++) {
        const struct trial *trial = &TRIALS[i];
        open_with(trial->flight);
        while (trial->flight > 0 && emit_train(0, UINT64_MAX, sizeof whole, SIZE_MAX, UINT32_MAX) > 0)
            ;
        send_both(0, trial->length);
        struct tcpcore_status before = status_of(1, 0);
        CHECK(before.in_flight, trial->flight);
        CHECK(emit_train(0, trial->window, sizeof whole, trial->most, UINT32_MAX), trial->segments);
        CHECK(status_of(1, 0).snd_nxt - before.snd_nxt, trial->count);
        free_all();
    }
}

/* A pending acknowledgement goes alone where text waits for the window, with the sum of the pseudo-header. */
static void acknowledges_alone(void)
{
    open_with(4380);
    CHECK(emit_train(0, UINT64_MAX, sizeof whole, SIZE_MAX, UINT32_MAX), 3);
    send_both(1, 100);
    carry_all(1);
    send_both(0, 1000);
    unsigned long before = alone[TCPCORE_KIND_ACKNOWLEDGEMENT];
    CHECK(emit_train(0, 1000, sizeof whole, SIZE_MAX, UINT32_MAX), 1);
    CHECK(alone[TCPCORE_KIND_ACKNOWLEDGEMENT], before + 1);
    CHECK(emit_train(0, 1000, sizeof whole, SIZE_MAX, UINT32_MAX), 0);
    free_all();
}

static void step(void)
{
    static const size_t MOST[] = {0, 1, 2, 5, 1000, SIZE_MAX};
    static const uint64_t WINDOWS[] = {0, 1460, 3000, 14600, 60000, UINT64_MAX};
    int end = (int)any(2);
    uint32_t what = any(24);
    if (what < 8) {
        size_t room = TCPCORE_EMIT_ROOM + any(any(2) ? 6000 : LONGEST - TCPCORE_EMIT_ROOM + 1);
        uint64_t window = WINDOWS[any(6)];
        held += emit_train(end, window, room, MOST[any(6)], 20) == 0 && emit_train(end, UINT64_MAX, room, 1, 20) > 0;
    } else if (what < 17) {
        for (uint32_t i = any(8) + 1; i-- > 0;)
            arrive_some(end);
    } else if (what < 20) {
        pass_time(end);
    } else {
        call(end);
    }
    same_states();
}

/* Two pairs from the first SYN on; in the end one side aborts. */
static void round_of_calls(void)
{
    static const uint32_t SIZES[] = {100, 5000, 70000, CAPACITY};
    struct choice choice = {.mss = (uint16_t)(64 + any(1397)), .sack = (uint8_t)any(2)};
    for (int end = ENDS; end-- > 0;) {
        choice.send = 1 + any(SIZES[1 + any(3)]);
        choice.receive = 1 + any(SIZES[any(4)]);
        choice.scales = (uint8_t)any(2);
        choice.shift = (uint8_t)any(6);
        make(end, &choice);
    }
    for (int i = 0; i < STEPS; i++)
        step();
    int end = (int)any(2);
    CHECK(tcpcore_connection_abort(&ends[1][end], now), tcpcore_connection_abort(&ends[0][end], now));
    for (int i = 0; i < 10; i++)
        step();
    free_all();
}

int main(void)
{
    for (size_t i = 0; i < sizeof text; i++)
        text[i] = (unsigned char)any(256);
    try_each();
    acknowledges_alone();
    for (int i = 0; i < ROUNDS; i++)
        round_of_calls();
    /* The traffic has met what the call is for. */
    CHECK(together > 200 && held > 100 && with_blocks > 10, 1);
    CHECK(expired[TCPCORE_TIMER_RETRANSMIT] > 50 && expired[TCPCORE_TIMER_REORDER] > 5, 1);
    for (int kind = TCPCORE_KIND_RESET; kind <= TCPCORE_KIND_ACKNOWLEDGEMENT; kind++)
        CHECK(alone[kind] > 0, 1);
    printf("connection_train: both pairs agree\n");
    return checks > 100000 ? 0 : 1;
}
