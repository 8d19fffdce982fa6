/*
 * The test of segments that are emitted as one: two pairs of ends have the same traffic side by side, the first by tcpcore_emit, the
 * second by tcpcore_emit_train. What it writes is cut by device.h. Each piece
 * has to be what tcpcore_emit writes of the first pair, and every status the same behind them. How many go together is counted by
 * this file, from what the end reports.
 */
enum { CAPACITY = 1 << 20, WAITING = 64, ROUNDS = 60, STEPS = 500, LONGEST = 70000, CANARY = 0x5a };
#include "pairs.h"

#include "device.h"

static unsigned char text[CAPACITY], whole[LONGEST];

/* What the traffic has met: several segments as one, cut short by each bound; with a longer header; what went alone, by its kind. */
static unsigned long together, by_most, by_room, by_window, by_queue, with_blocks, pushed, alone[TCPCORE_KIND_ACKNOWLEDGEMENT + 1];

static uint64_t least(uint64_t one, uint64_t other) { return one < other ? one : other; }

/* Piece `which` of the segment of so many bytes in `whole`. Answers whether it is the last. */
static int cut(struct segment *out, tcpcore_addr src, size_t length, size_t size, size_t which)
{
    out->length = cut_piece(whole, length, size, which, src, out->to, out->bytes);
    return size == 0 || size * (which + 1) + (whole[12] >> 4) * 4u >= length;
}

/* How many segments go together, by what is due and what the end reports before; `allowed` is the text that may go. */
static uint64_t wanted(const struct tcpcore_status *status, const struct tcpcore_transmit *next, size_t room, size_t most,
                       uint64_t *allowed)
{
    if (next->kind != TCPCORE_KIND_NEW_TEXT)
        return 1;
    uint64_t unsent = status->released + status->queued - (status->snd_nxt - 1);
    uint64_t edge = status->snd_una + status->snd_wnd, usable = edge > status->snd_nxt ? edge - status->snd_nxt : 0;
    uint64_t fitting = (least(room, TCPCORE_TRAIN_ROOM) - (next->length - next->count)) / next->count;
    *allowed = least(unsent, usable);
    uint64_t count = least(least(most, fitting), (*allowed + next->count - 1) / next->count);
    return count > 1 ? count : 1;
}

/* What bound the count of what went together. */
static void tally(const struct tcpcore_train *train, size_t room, size_t most, uint64_t allowed, uint64_t unsent)
{
    uint64_t larger = train->header + (train->segments + 1) * train->each;
    together++;
    with_blocks += train->header >= 40;
    by_most += train->segments == most && train->whole.count < allowed;
    by_room += train->segments < most && train->whole.count < allowed && larger > least(room, TCPCORE_TRAIN_ROOM);
    by_window += train->whole.count == allowed && allowed < unsent;
    by_queue += train->whole.count == unsent;
    pushed += (whole[13] & PSH) != 0;
}

/* One piece goes to the peer, or is lost. */
static void send_on(int end, const struct segment *piece, uint32_t chance)
{
    if (waiting[!end] < WAITING && any(chance) > 0)
        wire[!end][waiting[!end]++] = *piece;
}

/* The second pair's end emits as one, the first one's as often as that says; each piece of it is the same. Answers how many went. */
static uint64_t emit_train(int end, size_t room, size_t most, uint32_t chance)
{
    struct tcpcore_status before = status_of(1, end);
    struct tcpcore_transmit next;
    struct tcpcore_train train;
    struct segment piece, old;
    uint64_t allowed = 0;
    uint32_t due = tcpcore_next(&ends[1][end], &next);
    memset(&train, 7, sizeof train);
    memset(whole, CANARY, sizeof whole);
    CHECK(tcpcore_emit_train(&ends[1][end], whole, room, most, &train), due);
    for (size_t i = 0; i < sizeof train.reserved / sizeof *train.reserved; i++)
        CHECK(train.reserved[i], 0);
    for (size_t i = train.whole.length; i < sizeof whole; i++)
        if (whole[i] != CANARY)
            CHECK(i, -1);
    if (due != TCPCORE_DONE) {
        CHECK(memcmp(&train.whole, &next, sizeof next), 0);
        CHECK(train.header + train.each + train.segments, 0);
        CHECK(tcpcore_emit(&ends[0][end], old.bytes, sizeof old.bytes, &old.to, &old.length), due);
        return 0;
    }
    CHECK(train.segments, wanted(&before, &next, room, most, &allowed));
    CHECK(train.each, next.count);
    CHECK(train.header, (whole[12] >> 4) * 4);
    CHECK(train.whole.length, train.header + train.whole.count);
    CHECK(train.whole.length <= TCPCORE_TRAIN_ROOM && train.whole.length <= room, 1);
    CHECK(train.whole.count, train.segments > 1 ? least(train.segments * train.each, allowed) : next.count);
    CHECK(train.whole.kind, next.kind);
    CHECK(train.whole.position, next.position);
    CHECK(memcmp(&train.whole.to, &next.to, sizeof next.to), 0);
    CHECK(get16(whole + 16), pseudo(ADDRS[end], train.whole.to, (size_t)train.whole.length));
    if (train.segments > 1)
        tally(&train, room, most, allowed, before.released + before.queued - (before.snd_nxt - 1));
    else
        alone[train.whole.kind]++;
    for (size_t i = 0; i < train.segments; i++) {
        piece.to = train.whole.to;
        int is_last = cut(&piece, ADDRS[end], (size_t)train.whole.length, (size_t)train.each, i);
        CHECK(is_last, i + 1 == train.segments);
        CHECK(tcpcore_emit(&ends[0][end], old.bytes, sizeof old.bytes, &old.to, &old.length), TCPCORE_DONE);
        CHECK(piece.length, old.length);
        CHECK(memcmp(&piece.to, &old.to, sizeof old.to), 0);
        CHECK(memcmp(piece.bytes, old.bytes, old.length), 0);
        send_on(end, &piece, chance);
    }
    same_states();
    return train.segments;
}

/* The first of the segments that wait comes, to both pairs, or another one does. */
static void arrive_some(int end)
{
    if (waiting[end] == 0)
        return;
    size_t which = any(4) ? 0 : any((uint32_t)waiting[end]);
    struct segment segment = wire[end][which];
    if (any(15) > 0)
        memmove(&wire[end][which], &wire[end][which + 1], (--waiting[end] - which) * sizeof segment);
    uint32_t answer = tcpcore_arrive(&ends[0][end], ADDRS[!end], segment.to, segment.bytes, segment.length);
    CHECK(tcpcore_arrive(&ends[1][end], ADDRS[!end], segment.to, segment.bytes, segment.length), answer);
}

/* A call that both pairs make alike. */
static void call(int end)
{
    static unsigned char read[CAPACITY];
    uint32_t answers[PAIRS], which = any(200), timer = any(3);
    size_t length = any(any(2) ? 100000 : 3000), count[PAIRS] = {0, 0};
    for (int pair = 0; pair < PAIRS; pair++) {
        tcpcore_end *it = &ends[pair][end];
        answers[pair] = which < 110 ? tcpcore_send(it, text + length, length, &count[pair])
                        : which < 160 ? tcpcore_receive(it, read, length, &count[pair])
                        : which < 190 ? tcpcore_timer(it, timer)
                        : which < 199 ? tcpcore_acknowledge(it)
                                      : tcpcore_close(it);
    }
    CHECK(answers[1], answers[0]);
    CHECK(count[1], count[0]);
}

/* An end as its parts of a config say, in both pairs. */
struct choice {
    uint16_t mss;
    uint64_t send, receive;
    uint8_t shift, scales, sack;
};

static void make(int end, const struct choice *choice)
{
    tcpcore_config config = {.addr = ADDRS[end], .port = (uint16_t)(7 + end), .mss = choice->mss, .isn = any(UINT32_MAX),
                             .send_capacity = choice->send, .recv_capacity = choice->receive, .limit = TCPCORE_LIMIT,
                             .window_shift = choice->shift, .scales = choice->scales, .sack = choice->sack};
    waiting[end] = 0;
    for (int pair = 0; pair < PAIRS; pair++) {
        CHECK(tcpcore_new(&ends[pair][end], &config, blocks[pair][end], sizeof blocks[pair][end]), TCPCORE_DONE);
        CHECK(end == 0 ? tcpcore_connect(&ends[pair][0], ADDRS[1], 8) : tcpcore_listen(&ends[pair][1]), TCPCORE_DONE);
    }
}

static void free_all(void)
{
    for (int pair = 0; pair < PAIRS; pair++)
        for (int end = 0; end < ENDS; end++)
            CHECK(tcpcore_free(&ends[pair][end]), TCPCORE_DONE);
}

/* All that waits comes in order, to both pairs. */
static void arrive_all(int end)
{
    for (size_t i = 0; i < waiting[end]; i++)
        for (int pair = 0; pair < PAIRS; pair++)
            CHECK(tcpcore_arrive(&ends[pair][end], ADDRS[!end], wire[end][i].to, wire[end][i].bytes, wire[end][i].length),
                  TCPCORE_DONE);
    waiting[end] = 0;
}

/* All that is due of one end goes to the other, in pieces. */
static void carry_all(int end)
{
    while (emit_train(end, sizeof whole, SIZE_MAX, UINT32_MAX) > 0)
        ;
    arrive_all(!end);
}

static void send_both(int end, size_t length)
{
    for (int pair = 0; pair < PAIRS; pair++) {
        size_t taken;
        CHECK(tcpcore_send(&ends[pair][end], text, length, &taken), TCPCORE_DONE);
        CHECK(taken, length);
    }
}

/* Two open pairs, of which the first end has so much text queued. */
static void open_with(const struct choice *choice, size_t length)
{
    for (int end = ENDS; end-- > 0;)
        make(end, choice);
    for (int turn = 0; turn < 3; turn++)
        carry_all(turn % 2);
    send_both(0, length);
}

/* What goes together of so much text, by room and most: how many segments, the bytes of their text, and whether it is pushed. */
struct trial {
    uint16_t mss;
    uint8_t shift, scales;
    uint64_t window;
    size_t length, room, most;
    uint64_t segments, count;
    int is_pushed;
};

static const struct trial TRIALS[] = {
    /* The queue ends it; a last segment that is short, one that is full, one of a byte. */
    {1460, 0, 0, 65535, 10000, LONGEST, 1000, 7, 10000, 1},
    {1460, 0, 0, 65535, 2920, LONGEST, 1000, 2, 2920, 1},
    {1460, 0, 0, 65535, 2921, LONGEST, 1000, 3, 2921, 1},
    {1460, 0, 0, 65535, 1460, LONGEST, 1000, 1, 1460, 1},
    {1460, 0, 0, 65535, 1, LONGEST, 1000, 1, 1, 1},
    {64, 0, 0, 65535, 6400, LONGEST, 1000, 100, 6400, 1},
    /* `most` does, of which 0 is 1. */
    {1460, 0, 0, 65535, 10000, LONGEST, 0, 1, 1460, 0},
    {1460, 0, 0, 65535, 10000, LONGEST, 1, 1, 1460, 0},
    {1460, 0, 0, 65535, 10000, LONGEST, 2, 2, 2920, 0},
    {1460, 0, 0, 65535, 10000, LONGEST, 5, 5, 7300, 0},
    {1460, 0, 0, 65535, 7300, LONGEST, 5, 5, 7300, 1},
    {1460, 0, 0, 65535, 10000, LONGEST, SIZE_MAX, 7, 10000, 1},
    /* The room does, which has place for whole segments alone. */
    {1460, 0, 0, 65535, 10000, TCPCORE_EMIT_ROOM, 1000, 1, 1460, 0},
    {1460, 0, 0, 65535, 10000, 2939, 1000, 1, 1460, 0},
    {1460, 0, 0, 65535, 10000, 2940, 1000, 2, 2920, 0},
    {100, 0, 0, 65535, 10000, TCPCORE_EMIT_ROOM, 1000, 15, 1500, 0},
    /* The peer's window does. */
    {1460, 0, 0, 5000, 10000, LONGEST, 1000, 4, 5000, 0},
    {1460, 0, 0, 4380, 10000, LONGEST, 1000, 3, 4380, 0},
    {536, 0, 1, 30000, 100000, LONGEST, 1000, 56, 30000, 0},
    /* An IPv4 packet's length does, where windows are scaled. */
    {1460, 5, 1, 1048576, 200000, LONGEST, 1000, 44, 64240, 0},
    {1460, 5, 1, 1048576, 200000, TCPCORE_TRAIN_ROOM, 1000, 44, 64240, 0},
    {1460, 5, 1, 1048576, 200000, 64259, 1000, 43, 62780, 0},
    {64, 5, 1, 1048576, 200000, LONGEST, 5000, 1023, 65472, 0},
};

static void try_each(void)
{
    for (size_t i = 0; i < sizeof TRIALS / sizeof *TRIALS; i++) {
        const struct trial *trial = &TRIALS[i];
        struct choice choice = {trial->mss, CAPACITY, trial->window, trial->shift, trial->scales, 0};
        open_with(&choice, trial->length);
        struct tcpcore_status before = status_of(1, 0);
        CHECK(emit_train(0, trial->room, trial->most, UINT32_MAX), trial->segments);
        CHECK(status_of(1, 0).snd_nxt - before.snd_nxt, trial->count);
        CHECK((whole[13] & PSH) != 0, trial->is_pushed);
        free_all();
    }
}

/* What was in flight goes again alone, each by each, and so does the FIN; what is new behind it goes together. */
static void again(void)
{
    struct choice choice = {1000, CAPACITY, 65535, 0, 0, 0};
    open_with(&choice, 3000);
    CHECK(emit_train(0, sizeof whole, 1000, UINT32_MAX), 3);
    waiting[1] = 0;
    for (int pair = 0; pair < PAIRS; pair++)
        CHECK(tcpcore_timer(&ends[pair][0], TCPCORE_TIMER_RETRANSMIT), TCPCORE_DONE);
    send_both(0, 2500);
    for (int pair = 0; pair < PAIRS; pair++)
        CHECK(tcpcore_close(&ends[pair][0]), TCPCORE_DONE);
    for (int i = 0; i < 3; i++)
        CHECK(emit_train(0, sizeof whole, 1000, UINT32_MAX), 1);
    CHECK(emit_train(0, sizeof whole, 1000, UINT32_MAX), 3);
    CHECK(whole[13] & PSH, PSH);
    CHECK(emit_train(0, sizeof whole, 1000, UINT32_MAX), 1);
    CHECK(whole[13] & FIN, FIN);
    CHECK(emit_train(0, sizeof whole, 1000, UINT32_MAX), 0);
    /* 5,500 bytes and the FIN. */
    for (int pair = 0; pair < PAIRS; pair++)
        CHECK(tcpcore_timer(&ends[pair][0], TCPCORE_TIMER_RETRANSMIT), TCPCORE_DONE);
    for (int i = 0; i < 7; i++)
        CHECK(emit_train(0, sizeof whole, 1000, UINT32_MAX), 1);
    CHECK(whole[13] & FIN, FIN);
    CHECK(emit_train(0, sizeof whole, 1000, UINT32_MAX), 0);
    free_all();
}

/* Two blocks make the header longer by 20 bytes, and each segment shorter. */
static void with_two_blocks(void)
{
    struct choice choice = {1000, CAPACITY, 65535, 0, 0, 1};
    open_with(&choice, 5000);
    CHECK(emit_train(0, sizeof whole, 1000, UINT32_MAX), 5);
    /* The first, the third and the fifth of them are lost. */
    wire[1][0] = wire[1][1];
    wire[1][1] = wire[1][3];
    waiting[1] = 2;
    arrive_all(1);
    send_both(1, 5000);
    struct tcpcore_status before = status_of(1, 1);
    CHECK(emit_train(1, sizeof whole, 4, UINT32_MAX), 4);
    CHECK(whole[12] >> 4, 10);
    CHECK(status_of(1, 1).snd_nxt - before.snd_nxt, 4 * 980);
    free_all();
}

static void step(void)
{
    static const size_t MOST[] = {0, 1, 2, 5, 1000, SIZE_MAX};
    int end = (int)any(2);
    uint32_t what = any(20);
    if (what < 6) {
        size_t room = TCPCORE_EMIT_ROOM + any(any(2) ? 6000 : LONGEST - TCPCORE_EMIT_ROOM + 1);
        emit_train(end, room, MOST[any(6)], 20);
    } else if (what < 17) {
        for (uint32_t i = any(8) + 1; i-- > 0;)
            arrive_some(end);
    } else {
        call(end);
    }
    same_states();
}

/* Two pairs from the first SYN on; in the end one side aborts. */
static void round_of_calls(void)
{
    static const uint32_t SIZES[] = {100, 5000, 70000, CAPACITY};
    struct choice choice = {.mss = (uint16_t)(64 + any(1397)), .sack = (uint8_t)any(2)};
    for (int end = ENDS; end-- > 0;) {
        choice.send = 1 + any(SIZES[1 + any(3)]);
        choice.receive = 1 + any(SIZES[any(4)]);
        choice.scales = (uint8_t)any(2);
        choice.shift = (uint8_t)any(6);
        make(end, &choice);
    }
    for (int i = 0; i < STEPS; i++)
        step();
    int end = (int)any(2);
    CHECK(tcpcore_abort(&ends[1][end]), tcpcore_abort(&ends[0][end]));
    for (int i = 0; i < 10; i++)
        step();
    free_all();
}

int main(void)
{
    for (size_t i = 0; i < sizeof text; i++)
        text[i] = (unsigned char)any(256);
    try_each();
    again();
    with_two_blocks();
    for (int i = 0; i < ROUNDS; i++)
        round_of_calls();
    /* The traffic has met what the call is for. */
    CHECK(together > 400 && by_most > 100 && by_room > 100 && by_window > 50 && by_queue > 50 && with_blocks > 10 && pushed > 50, 1);
    for (int kind = TCPCORE_KIND_RESET; kind <= TCPCORE_KIND_ACKNOWLEDGEMENT; kind++)
        CHECK(alone[kind] > 0, 1);
    printf("train: both pairs agree\n");
    return checks > 100000 ? 0 : 1;
}
