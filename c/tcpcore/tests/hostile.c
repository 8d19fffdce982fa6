/*
 * Connections under hostile calls, drawn from a seed: any call, in any order, at times that go on, go back and end; segments that were
 * damaged, cut, made anew with a right checksum, vouched for, or come from elsewhere; lengths that are too long, pointers that are NULL or
 * lie over the struct, structs that were copied or freed, configs and rules out of their ranges, guards of any reach. Each call answers
 * what the header says of it: NO_END, NULL, LENGTH, COPIED and OVERLAP where it was called so, and never else. It writes zeros where it
 * refuses, and changes nothing then.
 * 'hostile SEED CALLS' makes so many; without words it makes 20,000.
 */
#include "check.h"
#include "sums.h"
#include "tcpcore.h"

#include <string.h>

enum { CAPACITY = 6000, KEPT = 64, RUNS = 8 };

static const tcpcore_addr ADDRS[3] = {{{10, 0, 0, 1}}, {{10, 0, 0, 2}}, {{0, 0, 0, 0}}};
static unsigned char blocks[2][TCPCORE_CONNECTION_MEMORY_RUNS(CAPACITY, CAPACITY, RUNS)], buffer[1 << 16];
static unsigned char recoveries[2][TCPCORE_RECOVERY_MEMORY];
static tcpcore_connection ends[2];
static uint64_t now, counts[60];

/* The last segments that were emitted, of either side. */
static struct segment {
    size_t length;
    unsigned char bytes[TCPCORE_EMIT_ROOM];
} kept[KEPT];
static size_t kept_count;

static uint64_t word;

static uint64_t any(uint64_t bound)
{
    word ^= word << 13;
    word ^= word >> 7;
    word ^= word << 17;
    return (word >> 16) % bound;
}

static int rarely(void) { return any(60) == 0; }

static int is_zero(const void *at, size_t length)
{
    const unsigned char *bytes = at;
    for (size_t i = 0; i < length; i++)
        if (bytes[i] != 0)
            return 0;
    return 1;
}

/* What of the call that is being made isn't as it should be: which of the boundary's answers it may have, and whether it must have one. */
static struct {
    int null, length, copied, overlap, no_end, must;
} odd;

static void is_odd(int *why, int must)
{
    *why = 1;
    odd.must |= must;
}

/* A length: short, long, or one that no buffer has. */
static size_t any_length(size_t most)
{
    switch (any(20)) {
    case 0:
        is_odd(&odd.length, 1);
        return SIZE_MAX - any(3);
    case 1:
        return 0;
    default:
        return any(most);
    }
}

static const tcpcore_connection NO_CONNECTION = TCPCORE_CONNECTION_INIT;

/* The connection that a call is given: a side's, and at times none, a copy or garbage. A call begins with it. */
static tcpcore_connection *any_end(size_t side)
{
    static tcpcore_connection copy, garbage = {{7, 7, 7}};
    tcpcore_connection *end = &ends[side];
    memset(&odd, 0, sizeof odd);
    if (rarely()) {
        copy = ends[side];
        end = any(3) == 0 ? NULL : any(2) == 0 ? &copy : &garbage;
    }
    if (!end)
        is_odd(&odd.null, 1);
    else if (memcmp(end, &NO_CONNECTION, sizeof NO_CONNECTION) == 0)
        is_odd(&odd.no_end, 1);
    else if (end != &ends[side])
        is_odd(&odd.copied, 1);
    return end;
}

/* Where a call with this struct reads or writes so many bytes: at `right`, and at times nowhere or over the struct. */
static void *any_buffer(void *right, size_t length, tcpcore_connection *end)
{
    void *at = !rarely() ? right : any(2) == 0 ? NULL : (void *)end;
    if (!at)
        is_odd(&odd.null, length > 0);
    else if (at == end)
        is_odd(&odd.overlap, length > 0);
    return at;
}

/* Where it writes what it has found. */
static void *any_place(void *right, tcpcore_connection *end) { return any_buffer(right, 1, end); }

/* Whether the answer is one of the boundary's that this call may have. */
static int is_refused(uint32_t answer)
{
    return (answer == TCPCORE_NO_END && odd.no_end) || (answer == TCPCORE_NULL && odd.null) || (answer == TCPCORE_LENGTH && odd.length) ||
           (answer == TCPCORE_COPIED && odd.copied) || (answer == TCPCORE_OVERLAP && odd.overlap);
}

/* The answer is one of the boundary's where it has to be, and else one of these. */
static void answers(const char *name, uint32_t answer, const uint32_t *others, size_t count)
{
    int is_right = is_refused(answer);
    for (size_t i = 0; i < count && !odd.must; i++)
        is_right |= answer == others[i];
    if (!is_right) {
        printf("hostile: %s answers '%s', called with [%s%s%s%s%s]\n", name, tcpcore_strerror(answer), odd.no_end ? " no end" : "",
               odd.null ? " NULL" : "", odd.length ? " a length" : "", odd.copied ? " a copy" : "", odd.overlap ? " an overlap" : "");
        exit(1);
    }
    counts[answer]++;
}

#define ANSWERS(name, answer, ...) \
    answers(name, answer, (const uint32_t[]){__VA_ARGS__}, sizeof((const uint32_t[]){__VA_ARGS__}) / sizeof(uint32_t))

/* Losses are found by time from now on, where no text was sent, once. */
static void choose_recovery(size_t side)
{
    tcpcore_connection *end = any_end(side);
    size_t length = any(8) == 0 ? any_length(sizeof *recoveries) : sizeof *recoveries;
    void *block = any_buffer(recoveries[side], length, end);
    ANSWERS("set_recovery", tcpcore_connection_set_recovery(end, now, block, length), TCPCORE_DONE, TCPCORE_IN_USE, TCPCORE_NO_RULE,
            TCPCORE_NO_MEMORY);
}

/* Makes a connection, with numbers that may be out of their ranges. */
static void make(size_t side)
{
    tcpcore_config config = TCPCORE_CONFIG_DEFAULT;
    struct tcpcore_connection_rules rules = TCPCORE_CONNECTION_RULES_DEFAULT;
    config.addr = ADDRS[rarely() ? 2 : side];
    config.port = (uint16_t)(rarely() ? 0 : 1 + side);
    config.isn = (uint32_t)(UINT32_MAX - any(10000));
    config.mss = (uint16_t)(rarely() ? any(100) : 64 + any(1397));
    config.send_capacity = rarely() ? any(4) * 1000000 : 1 + any(CAPACITY);
    config.recv_capacity = 1 + any(CAPACITY);
    config.scales = (uint8_t)any(2);
    config.window_shift = (uint8_t)any(rarely() ? 256 : 15);
    config.sack = (uint8_t)any(2);
    config.runs = (uint16_t)(rarely() ? 5000 : 1 + any(RUNS));
    config.limit = rarely() ? any(3) : 1 + any(UINT64_C(1) << (1 + any(40)));
    rules.least = rarely() ? any(2) : 1 + any(2000000);
    rules.greatest = any(UINT64_C(1) << (20 + any(24)));
    rules.user = any(4) == 0 ? TCPCORE_NEVER : any(UINT64_C(1) << 32);
    rules.fin_wait_2 = any(2) == 0 ? TCPCORE_NEVER : any(UINT64_C(1) << 32);
    rules.suspect_after = (uint32_t)any(4);
    rules.guard = any(3) == 0 ? TCPCORE_NO_GUARD : any(3) == 0 ? (uint32_t)any(5000) : TCPCORE_GUARD;
    tcpcore_connection was = ends[side], *end = any_end(side);
    size_t length = rarely() ? any_length(sizeof *blocks) : sizeof *blocks;
    void *block = any_buffer(blocks[side], length, end);
    /* Where there is none it makes one. */
    if (odd.no_end)
        odd.must = length > 0 && (odd.null || odd.length || odd.overlap);
    uint32_t answer = any(2) == 0 ? tcpcore_connection_listen(end, &config, &rules, now, block, length)
                                  : tcpcore_connection_connect(end, &config, &rules, ADDRS[1 - side], (uint16_t)(2 - side), now, block, length);
    ANSWERS("making", answer, TCPCORE_DONE, TCPCORE_IN_USE, TCPCORE_BAD_CAPACITY, TCPCORE_NO_MEMORY, TCPCORE_BAD_MSS, TCPCORE_BAD_SHIFT,
            TCPCORE_BAD_LIMIT, TCPCORE_BAD_ADDR, TCPCORE_BAD_PORT, TCPCORE_BAD_RUNS, TCPCORE_BAD_RULES);
    if (answer != TCPCORE_DONE)
        CHECK(memcmp(&was, &ends[side], sizeof was), 0);
    else if (any(3) > 0)
        choose_recovery(side);
}

/* Gives a segment the right checksum (RFC 9293, 3.1). */
static void seal(unsigned char *bytes, size_t length, tcpcore_addr src, tcpcore_addr dst)
{
    put16(bytes + 16, 0);
    put16(bytes + 16, ~summed(pseudo(src, dst, length), bytes, length) & 0xffff);
}

/* A segment that was emitted by either side, as it was or damaged; or any bytes. */
static size_t any_segment(unsigned char *bytes, tcpcore_addr src, tcpcore_addr dst)
{
    size_t length = any(100);
    for (size_t i = 0; i < length; i++)
        bytes[i] = (unsigned char)any(256);
    if (kept_count > 0 && any(10) > 0) {
        /* Of the last ones, or of all. */
        size_t most = kept_count < KEPT ? kept_count : KEPT, back = any(any(4) == 0 || most < 4 ? most : 4);
        const struct segment *it = &kept[(kept_count - 1 - back) % KEPT];
        length = it->length;
        memcpy(bytes, it->bytes, length);
    }
    for (uint64_t changes = any(12) == 0 ? 1 + any(3) : 0; changes > 0 && length > 0; changes--)
        bytes[any(any(2) == 0 && length > 20 ? 20 : length)] = (unsigned char)any(256);
    if (rarely())
        length = any(length + 1);
    if (any(4) > 0 && length >= 20)
        seal(bytes, length, src, dst);
    return length;
}

static void arrive(size_t side)
{
    struct tcpcore_arrive_report report;
    size_t from = rarely() ? any(3) : 1 - side, to = rarely() ? any(3) : side;
    size_t length = any_segment(buffer, ADDRS[from], ADDRS[to]);
    tcpcore_connection *end = any_end(side);
    void *place = any_place(&report, end);
    if (rarely()) {
        is_odd(&odd.length, 1);
        length = SIZE_MAX - any(3);
    }
    const void *bytes = any_buffer(buffer, length, end);
    uint32_t answer = any(4) == 0 ? tcpcore_connection_arrive_vouched(end, now, ADDRS[from], ADDRS[to], bytes, length, place)
                                  : tcpcore_connection_arrive(end, now, ADDRS[from], ADDRS[to], bytes, length, place);
    ANSWERS("arrive", answer, TCPCORE_DONE, TCPCORE_TOO_SHORT, TCPCORE_TOO_LONG, TCPCORE_BAD_CHECKSUM, TCPCORE_BAD_OFFSET, TCPCORE_BAD_OPTION,
            TCPCORE_BAD_PADDING, TCPCORE_DROPPED, TCPCORE_NOT_MINE, TCPCORE_EMIT_FIRST, TCPCORE_WITHHELD);
    if (place == &report && answer != TCPCORE_DONE && answer != TCPCORE_DROPPED && answer != TCPCORE_NOT_MINE)
        CHECK(is_zero(&report, sizeof report), 1);
}

static const uint64_t WINDOWS[] = {0, 1, 1460, 5000, UINT64_MAX};

/* Segments as one: it is written whole, and none of the pieces is kept. */
static void emit_train(size_t side)
{
    static unsigned char whole[70000];
    struct tcpcore_train train;
    tcpcore_connection *end = any_end(side);
    void *place = any_place(&train, end);
    size_t room = rarely() ? any_length(sizeof whole) : sizeof whole;
    void *out = any_buffer(whole, room, end);
    uint32_t answer = tcpcore_connection_emit_train(end, now, WINDOWS[any(5)], out, room, any(3) == 0 ? SIZE_MAX : any(20), place);
    ANSWERS("emit_train", answer, TCPCORE_DONE, TCPCORE_NOT_DUE, TCPCORE_ROOM);
    if (answer != TCPCORE_DONE) {
        CHECK(place != &train || is_zero(&train, sizeof train), 1);
        return;
    }
    CHECK(train.whole.length >= 20 && train.whole.length <= TCPCORE_TRAIN_ROOM && train.whole.length <= room, 1);
    CHECK(train.segments >= 1 && train.whole.length == train.header + train.whole.count, 1);
    CHECK(train.segments == 1 || ((train.segments - 1) * train.each < train.whole.count && train.whole.count <= train.segments * train.each), 1);
}

static void emit(size_t side)
{
    struct segment *it = &kept[kept_count % KEPT];
    struct tcpcore_connection_segment segment;
    if (any(8) == 0) {
        emit_train(side);
        return;
    }
    tcpcore_connection *end = any_end(side);
    void *place = any_place(&segment, end);
    size_t room = rarely() ? any_length(TCPCORE_EMIT_ROOM) : TCPCORE_EMIT_ROOM;
    void *out = any_buffer(it->bytes, room, end);
    uint32_t answer = tcpcore_connection_emit(end, now, WINDOWS[any(5)], out, room, place);
    ANSWERS("emit", answer, TCPCORE_DONE, TCPCORE_NOT_DUE, TCPCORE_ROOM);
    if (answer != TCPCORE_DONE) {
        CHECK(place != &segment || is_zero(&segment, sizeof segment), 1);
        return;
    }
    CHECK(segment.length >= 20 && segment.length <= TCPCORE_EMIT_ROOM, 1);
    it->length = (size_t)segment.length;
    kept_count++;
}

static void send(size_t side)
{
    tcpcore_connection *end = any_end(side);
    size_t taken = 7, length = any_length(5000), *place = any_place(&taken, end);
    const void *text = any_buffer(buffer, length, end);
    uint32_t answer = tcpcore_connection_send(end, now, text, length, place);
    ANSWERS("send", answer, TCPCORE_DONE, TCPCORE_ENDED, TCPCORE_NOT_CONNECTED, TCPCORE_CLOSING, TCPCORE_STREAM_FULL);
    CHECK(place != &taken || (answer == TCPCORE_DONE ? taken <= length : taken == 0), 1);
}

static void receive(size_t side)
{
    static unsigned char read[5000];
    tcpcore_connection *end = any_end(side);
    size_t count = 7, room = any_length(sizeof read), *place = any_place(&count, end);
    void *out = any_buffer(read, room, end);
    uint32_t answer = tcpcore_connection_receive(end, now, out, room, place);
    ANSWERS("receive", answer, TCPCORE_DONE, TCPCORE_NOTHING, TCPCORE_END_OF_STREAM, TCPCORE_ENDED, TCPCORE_NOT_OPEN);
    CHECK(place != &count || (answer == TCPCORE_DONE ? count <= room : count == 0), 1);
}

static void peek(size_t side)
{
    struct tcpcore_lent lent;
    tcpcore_connection *end = any_end(side);
    uint32_t answer = tcpcore_connection_peek(end, any_place(&lent, end));
    ANSWERS("peek", answer, TCPCORE_DONE, TCPCORE_NOTHING, TCPCORE_END_OF_STREAM, TCPCORE_ENDED, TCPCORE_NOT_OPEN);
    if (answer == TCPCORE_DONE) {
        /* All that is lent can be read. */
        memcpy(buffer, lent.first.at, lent.first.length);
        if (lent.second.length > 0)
            memcpy(buffer + lent.first.length, lent.second.at, lent.second.length);
    }
}

static void consume(size_t side)
{
    tcpcore_connection *end = any_end(side);
    size_t count = 7, most = any(20) == 0 ? SIZE_MAX : any(5000), *place = any_place(&count, end);
    uint32_t answer = tcpcore_connection_consume(end, now, most, place);
    ANSWERS("consume", answer, TCPCORE_DONE, TCPCORE_ENDED, TCPCORE_NOT_OPEN);
    CHECK(place != &count || (answer == TCPCORE_DONE ? count <= most : count == 0), 1);
}

static void lend(size_t side) { any(2) == 0 ? peek(side) : consume(side); }

static void poll_at(size_t side)
{
    tcpcore_connection *end = any_end(side);
    uint64_t at = 7, *place = any_place(&at, end);
    uint32_t answer = tcpcore_connection_poll_at(end, place);
    ANSWERS("poll_at", answer, TCPCORE_DONE);
    CHECK(place != &at || answer == TCPCORE_DONE || at == 0, 1);
    if (answer == TCPCORE_DONE && any(2) == 0 && at != TCPCORE_NEVER && at > now)
        now = at;
}

static void tick(size_t side)
{
    tcpcore_connection *end = any_end(side);
    uint32_t timer = 7, *place = any_place(&timer, end);
    uint64_t next = 7, *next_place = any_place(&next, end);
    uint32_t answer = tcpcore_connection_tick(end, now, place, next_place);
    ANSWERS("tick", answer, TCPCORE_DONE, TCPCORE_NOT_DUE);
    CHECK(place != &timer || (answer == TCPCORE_DONE ? timer <= TCPCORE_TIMER_USER : timer == 0), 1);
    CHECK(next_place != &next || answer == TCPCORE_DONE || answer == TCPCORE_NOT_DUE || next == 0, 1);
}

static void timeout(size_t side)
{
    if (any(3) == 0) {
        tick(side);
        return;
    }
    poll_at(side);
    tcpcore_connection *end = any_end(side);
    uint32_t timer = 7, *place = any_place(&timer, end);
    uint32_t answer = tcpcore_connection_timeout(end, now, place);
    ANSWERS("timeout", answer, TCPCORE_DONE, TCPCORE_NOT_DUE);
    CHECK(place != &timer || (answer == TCPCORE_DONE ? timer <= TCPCORE_TIMER_USER : timer == 0), 1);
}

static int is_one_of_ours(tcpcore_addr addr)
{
    for (size_t i = 0; i < sizeof ADDRS / sizeof *ADDRS; i++)
        if (memcmp(&addr, &ADDRS[i], sizeof addr) == 0)
            return 1;
    return 0;
}

/* The peer that it was opened to, or whose SYN it took: no call looks at what an address means, so it may be 0.0.0.0. */
static void peer(size_t side)
{
    tcpcore_addr addr = {{7, 7, 7, 7}};
    uint16_t port = 7;
    tcpcore_connection *end = any_end(side);
    tcpcore_addr *addr_place = any_place(&addr, end);
    uint16_t *port_place = any_place(&port, end);
    uint32_t answer = tcpcore_connection_peer(end, addr_place, port_place);
    ANSWERS("peer", answer, TCPCORE_DONE, TCPCORE_NOT_CONNECTED);
    if (answer == TCPCORE_DONE)
        CHECK(is_one_of_ours(addr), 1);
    else
        CHECK((addr_place != &addr || is_zero(&addr, sizeof addr)) && (port_place != &port || port == 0), 1);
}

/* A number of any magnitude. */
static uint64_t any_wait(void) { return any(4) == 0 ? TCPCORE_NEVER : any(UINT64_C(1) << (1 + any(62))); }

/* The default policy, or any. */
static void choose_policy(tcpcore_connection *end)
{
    struct tcpcore_policy policy = TCPCORE_POLICY_DEFAULT;
    if (any(2) == 0)
        policy = (struct tcpcore_policy){.ack_delay = any_wait(), .override_timeout = any_wait(), .answer_interval = any_wait(),
                                         .nagle = (uint32_t)any(3)};
    struct tcpcore_policy *chosen = rarely() ? NULL : &policy;
    if (!chosen)
        is_odd(&odd.null, 1);
    ANSWERS("set_policy", tcpcore_connection_set_policy(end, chosen), TCPCORE_DONE);
}

/* Usual keep-alives, some in a second, none, or any. */
static void choose_keep_alive(tcpcore_connection *end)
{
    struct tcpcore_keep_alive rules = TCPCORE_KEEP_ALIVE_DEFAULT;
    if (any(2) == 0)
        rules = (struct tcpcore_keep_alive){.idle = any(3), .interval = any(3), .most = (uint32_t)any(5)};
    else if (any(2) == 0)
        rules = (struct tcpcore_keep_alive){.idle = any_wait(), .interval = any_wait(), .most = (uint32_t)any(UINT64_C(1) << 32)};
    struct tcpcore_keep_alive *chosen = rarely() ? NULL : &rules;
    if (!chosen)
        is_odd(&odd.null, 1);
    ANSWERS("set_keep_alive", tcpcore_connection_set_keep_alive(end, now, chosen), TCPCORE_DONE);
}

/* A call that changes what its timers will do. */
static void change_timers(size_t side)
{
    if (any(4) == 0) {
        choose_recovery(side);
        return;
    }
    tcpcore_connection *end = any_end(side);
    if (any(2) == 0)
        ANSWERS("set_user_timeout", tcpcore_connection_set_user_timeout(end, any(2) == 0 ? TCPCORE_NEVER : any(UINT64_C(1) << (1 + any(62)))),
                TCPCORE_DONE);
    else if (any(2) == 0)
        ANSWERS("resend_first", tcpcore_connection_resend_first(end, now), TCPCORE_DONE, TCPCORE_NO_RULE);
    else if (any(2) == 0)
        ANSWERS("resend", tcpcore_connection_resend(end, now, any(5000), any(2) == 0 ? any(10000) : UINT64_MAX), TCPCORE_DONE, TCPCORE_NO_RULE);
    else if (any(2) == 0)
        ANSWERS("set_congestion", tcpcore_connection_set_congestion(end, (uint32_t)any(4)), TCPCORE_DONE, TCPCORE_NO_RULE, TCPCORE_BAD_RULES);
    else if (any(3) > 0)
        choose_policy(end);
    else if (any(2) == 0)
        choose_keep_alive(end);
    else
        ANSWERS("set_pacing", tcpcore_connection_set_pacing(end, (uint32_t)any(3)), TCPCORE_DONE);
    struct tcpcore_congestion congestion, *place = any_place(&congestion, end);
    if (tcpcore_connection_congestion(end, place) == TCPCORE_DONE)
        CHECK(congestion.cwnd > 0 && congestion.cwnd >= congestion.smss && congestion.congestion <= TCPCORE_CONGESTION_CUBIC, 1);
}

/* A call of the user's without a length. */
static void use(size_t side)
{
    switch (any(30)) {
    case 0:
    case 3:
    case 4:
        ANSWERS("close", tcpcore_connection_close(any_end(side), now), TCPCORE_DONE, TCPCORE_ENDED, TCPCORE_CLOSING);
        break;
    case 1:
        ANSWERS("abort", tcpcore_connection_abort(any_end(side), now), TCPCORE_DONE, TCPCORE_ENDED);
        break;
    case 2:
        ANSWERS("free", tcpcore_connection_free(any_end(side)), TCPCORE_DONE);
        break;
    default:
        ANSWERS("acknowledge", tcpcore_connection_acknowledge(any_end(side), now), TCPCORE_DONE);
    }
}

/* Time goes on, back, or to its end and back. */
static uint64_t any_time(uint64_t was)
{
    switch (any(2000)) {
    case 0:
        return UINT64_MAX - any(3);
    case 1:
        return was + any(UINT64_C(1) << 40);
    default:
        return any(20) == 0 ? any(was + 1) : was + any(UINT64_C(1) << any(18));
    }
}

/* What an end tells of itself is what can be. */
static void is_sound(size_t side)
{
    struct tcpcore_status s;
    tcpcore_connection *end = any_end(side);
    uint32_t answer = tcpcore_connection_status(end, any_place(&s, end));
    ANSWERS("status", answer, TCPCORE_DONE);
    if (answer != TCPCORE_DONE)
        return;
    CHECK(s.phase <= TCPCORE_PHASE_TIME_WAIT && s.ending <= TCPCORE_ENDING_ABORTED, 1);
    CHECK(s.unread <= s.ordered && s.unread <= CAPACITY && s.in_flight <= s.queued && s.queued + s.room <= CAPACITY, 1);
    CHECK(s.snd_una <= s.snd_nxt && s.rcv_wnd <= CAPACITY && s.released <= s.snd_una, 1);
    /* One that has ended makes room for another. */
    if (s.phase == TCPCORE_PHASE_CLOSED && any(10) == 0)
        ANSWERS("free", tcpcore_connection_free(any_end(side)), TCPCORE_DONE);
}

int main(int count, char **words)
{
    uint64_t seed = count > 2 ? strtoull(words[1], NULL, 10) : 1, calls = count > 2 ? strtoull(words[2], NULL, 10) : 20000;
    static void (*const STEPS[])(size_t) = {arrive, arrive, arrive, arrive, emit, emit, emit, emit, send, receive, lend, timeout, peer, change_timers, use};
    word = seed * 2654435761u + 88172645463325252u;
    for (uint64_t call = 0; call < calls; call++) {
        size_t side = any(2);
        uint64_t was = now;
        now = any_time(was);
        if (is_zero(&ends[side], sizeof ends[side]) || rarely())
            make(side);
        STEPS[any(sizeof STEPS / sizeof *STEPS)](side);
        is_sound(side);
        /* A connection whose time has ended is made anew, and time goes on from where it was. */
        if (now > UINT64_C(1) << 62 && memcmp(&ends[side], &NO_CONNECTION, sizeof NO_CONNECTION) != 0)
            CHECK(tcpcore_connection_free(&ends[side]), TCPCORE_DONE);
        now = now < was || now > UINT64_C(1) << 62 ? was : now;
    }
    static const uint32_t MET[] = {TCPCORE_DONE, TCPCORE_BAD_CHECKSUM, TCPCORE_ENDED, TCPCORE_COPIED, TCPCORE_OVERLAP, TCPCORE_NULL,
                                   TCPCORE_LENGTH, TCPCORE_NOT_MINE, TCPCORE_DROPPED, TCPCORE_EMIT_FIRST, TCPCORE_END_OF_STREAM,
                                   TCPCORE_CLOSING, TCPCORE_BAD_RULES, TCPCORE_IN_USE, TCPCORE_NO_END, TCPCORE_NO_RULE,
                                   TCPCORE_NOT_CONNECTED};
    for (size_t i = 0; i < sizeof MET / sizeof *MET; i++)
        if (counts[MET[i]] == 0)
            printf("hostile: %s was never met\n", tcpcore_strerror(MET[i]));
    printf("hostile: each call answered what it may\n");
    return 0;
}
