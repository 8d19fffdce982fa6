/*
 * The test of a connection's policy: when acknowledgements and small segments go out (RFC 9293, 3.7.4 and 3.8.6; RFC 5961, 7). Each time is
 * worked out by hand. Segments have 500 bytes of text at most, buffers 1,000. Times are microseconds.
 */
#include "connection.h"

enum { MS = 1000, FULL = 500, NOW = 5 * SECOND };

static const struct tcpcore_policy DEFAULT = TCPCORE_POLICY_DEFAULT;
static unsigned char text[CAPACITY];

/* Both ends in ESTABLISHED, with full segments of so many bytes, at 0. */
static void begin_with(uint16_t mss)
{
    tcpcore_config config = good_config(HERE);
    config.mss = mss;
    CHECK(connects(&config, &RULES), TCPCORE_DONE);
    config = good_config(THERE);
    CHECK(tcpcore_connection_listen(&b, &config, &RULES, 0, blocks[1], sizeof *blocks), TCPCORE_DONE);
    CHECK(carry(&a, HERE, &b, 0), 1);
    CHECK(carry(&b, THERE, &a, 0), 1);
    CHECK(carry(&a, HERE, &b, 0), 1);
}

static void begin(void) { begin_with(FULL); }

static void choose(tcpcore_connection *connection, const struct tcpcore_policy *policy)
{
    CHECK(tcpcore_connection_set_policy(connection, policy), TCPCORE_DONE);
}

static void sends(tcpcore_connection *connection, uint64_t now, size_t length)
{
    size_t taken;
    CHECK(tcpcore_connection_send(connection, now, text, length, &taken), TCPCORE_DONE);
    CHECK(taken, length);
}

static void reads(tcpcore_connection *connection, uint64_t now, size_t length)
{
    unsigned char out[CAPACITY];
    size_t count;
    CHECK(tcpcore_connection_receive(connection, now, out, length, &count), TCPCORE_DONE);
    CHECK(count, length);
}

/* Nothing goes out at `now`, and no timer expires. */
static void waits(tcpcore_connection *connection, uint64_t now)
{
    unsigned char bytes[TCPCORE_EMIT_ROOM];
    struct tcpcore_connection_segment segment;
    uint32_t timer;
    CHECK(tcpcore_connection_timeout(connection, now, &timer), TCPCORE_NOT_DUE);
    CHECK(tcpcore_connection_emit(connection, now, UINT64_MAX, bytes, sizeof bytes, &segment), TCPCORE_NOT_DUE);
}

/* One segment of so many numbers goes out at `now`, and it is lost. */
static void loses(tcpcore_connection *connection, uint64_t now, uint64_t count)
{
    unsigned char bytes[TCPCORE_EMIT_ROOM];
    struct tcpcore_connection_segment segment;
    CHECK(tcpcore_connection_emit(connection, now, UINT64_MAX, bytes, sizeof bytes, &segment), TCPCORE_DONE);
    CHECK(segment.count, count);
}

static void delayed_acknowledgements(void)
{
    begin();
    choose(&b, &DEFAULT);
    /* One segment is acknowledged after 40 ms. */
    sends(&a, NOW, 100);
    CHECK(carry(&a, HERE, &b, NOW), 1);
    waits(&b, NOW);
    CHECK(poll_at(&b), NOW + 40 * MS);
    waits(&b, NOW + 40 * MS - 1);
    reads(&b, NOW + 40 * MS - 1, 100);
    CHECK(carry(&b, THERE, &a, NOW + 40 * MS), 1);
    CHECK(poll_at(&b), TCPCORE_NEVER);
    CHECK(status_of(&a).snd_una, 101);
    /* Two full segments are at once (RFC 5681, 4.2). */
    sends(&a, NOW + SECOND, 2 * FULL - 100);
    CHECK(carry(&a, HERE, &b, NOW + SECOND), 2);
    waits(&b, NOW + SECOND);
    sends(&a, NOW + SECOND, 100);
    CHECK(carry(&a, HERE, &b, NOW + SECOND), 1);
    CHECK(poll_at(&b) <= NOW + SECOND, 1);
    CHECK(carry(&b, THERE, &a, NOW + SECOND), 1);
    /* Text takes the acknowledgement along. */
    reads(&b, NOW, 2 * FULL);
    CHECK(carry(&b, THERE, &a, NOW + 2 * SECOND), 1);
    sends(&a, NOW + 2 * SECOND, 1);
    CHECK(carry(&a, HERE, &b, NOW + 2 * SECOND), 1);
    sends(&b, NOW + 2 * SECOND, 1);
    CHECK(carry(&b, THERE, &a, NOW + 2 * SECOND), 1);
    CHECK(status_of(&a).snd_una, 1 + 100 + 2 * FULL + 1);
    waits(&b, NOW + 2 * SECOND);
    free_both();
}

static void what_cannot_wait(void)
{
    begin();
    choose(&b, &DEFAULT);
    /* Behind a loss each segment is answered at once (RFC 5681, 4.2). */
    sends(&a, NOW, FULL);
    loses(&a, NOW, FULL);
    sends(&a, NOW, 100);
    CHECK(carry(&a, HERE, &b, NOW), 1);
    CHECK(poll_at(&b) <= NOW, 1);
    CHECK(carry(&b, THERE, &a, NOW), 1);
    /* A FIN is. */
    CHECK(tcpcore_connection_resend_first(&a, NOW), TCPCORE_DONE);
    CHECK(carry(&a, HERE, &b, NOW), 1);
    CHECK(carry(&b, THERE, &a, NOW), 1);
    CHECK(tcpcore_connection_close(&a, NOW), TCPCORE_DONE);
    CHECK(carry(&a, HERE, &b, NOW), 1);
    CHECK(carry(&b, THERE, &a, NOW), 1);
    CHECK(status_of(&a).phase, TCPCORE_PHASE_FIN_WAIT_2);
    free_both();
}

static void nagle(void)
{
    struct tcpcore_policy policy = DEFAULT;
    begin();
    choose(&a, &policy);
    /* What is small goes out while nothing is in flight, and else waits for the acknowledgement (RFC 9293, 3.7.4). */
    sends(&a, NOW, 1);
    CHECK(carry(&a, HERE, &b, NOW), 1);
    sends(&a, NOW, 1);
    sends(&a, NOW, 2);
    waits(&a, NOW);
    CHECK(poll_at(&a), NOW + 500 * MS);
    CHECK(carry(&b, THERE, &a, NOW + 100 * MS), 1);
    loses(&a, NOW + 100 * MS, 3);
    waits(&a, NOW + 100 * MS);
    /* A full segment doesn't wait. */
    sends(&a, NOW + 100 * MS, FULL + 1);
    loses(&a, NOW + 100 * MS, FULL);
    waits(&a, NOW + 100 * MS);
    free_both();
    /* Another policy has text wait anew. */
    begin();
    choose(&a, &policy);
    sends(&a, NOW, 1);
    loses(&a, NOW, 1);
    sends(&a, NOW, 1);
    waits(&a, NOW);
    choose(&a, &policy);
    waits(&a, NOW + 400 * MS);
    CHECK(poll_at(&a), NOW + 900 * MS);
    waits(&a, NOW + 900 * MS - 1);
    loses(&a, NOW + 900 * MS, 1);
    free_both();
    /* Where it isn't chosen what is small goes out. */
    policy.nagle = 0;
    begin();
    choose(&a, &policy);
    sends(&a, NOW, 1);
    loses(&a, NOW, 1);
    sends(&a, NOW, 1);
    loses(&a, NOW, 1);
    waits(&a, NOW);
    free_both();
}

static void silly_windows(void)
{
    begin();
    choose(&a, &DEFAULT);
    /* A window of 1,000 bytes is filled, and 300 are read of it: what has room is no full segment, nor half of the greatest window. */
    sends(&a, NOW, 2 * FULL);
    CHECK(carry(&a, HERE, &b, NOW), 2);
    reads(&b, NOW, 300);
    CHECK(tcpcore_connection_acknowledge(&b, NOW), TCPCORE_DONE);
    CHECK(carry(&b, THERE, &a, NOW), 1);
    sends(&a, NOW, 2 * FULL);
    waits(&a, NOW);
    CHECK(poll_at(&a), NOW + 500 * MS);
    waits(&a, NOW + 500 * MS - 1);
    /* The override timeout (RFC 9293, 3.8.6.2.1). */
    loses(&a, NOW + 500 * MS, 300);
    free_both();
    /* Half of the greatest window is worth a segment that isn't full. */
    begin_with(800);
    choose(&a, &DEFAULT);
    sends(&a, NOW, CAPACITY);
    CHECK(carry(&a, HERE, &b, NOW), 1);
    CHECK(carry(&b, THERE, &a, NOW), 1);
    CHECK(carry(&a, HERE, &b, NOW), 1);
    reads(&b, NOW, CAPACITY / 2);
    CHECK(carry(&b, THERE, &a, NOW), 1);
    sends(&a, NOW, CAPACITY);
    loses(&a, NOW, CAPACITY / 2);
    free_both();
}

static void windows_are_advertised(void)
{
    begin();
    choose(&b, &DEFAULT);
    sends(&a, NOW, 2 * FULL);
    CHECK(carry(&a, HERE, &b, NOW), 2);
    CHECK(carry(&b, THERE, &a, NOW), 1);
    CHECK(status_of(&a).snd_wnd, 0);
    /* A window is advertised once it has grown by a full segment (RFC 9293, 3.8.6.2.2), also where it was 0. */
    reads(&b, NOW, FULL - 1);
    waits(&b, NOW);
    reads(&b, NOW, 1);
    CHECK(carry(&b, THERE, &a, NOW), 1);
    CHECK(status_of(&a).snd_wnd, FULL);
    /* Where the peer has half of the capacity left it isn't. */
    reads(&b, NOW, FULL);
    waits(&b, NOW);
    free_both();
}

/* The word at a place of a segment is so much more, and its checksum fits that (RFC 1624, 3). */
static void change(unsigned char *bytes, size_t at, unsigned more)
{
    unsigned word = (unsigned)bytes[at] << 8 | bytes[at + 1], sum = (~((unsigned)bytes[16] << 8 | bytes[17]) & 0xffff) + more;
    word += more;
    sum = ~((sum & 0xffff) + (sum >> 16));
    bytes[at] = (unsigned char)(word >> 8), bytes[at + 1] = (unsigned char)word;
    bytes[16] = (unsigned char)(sum >> 8), bytes[17] = (unsigned char)sum;
}

/* An acknowledgement of `a` comes, of which the word at a place is so much more. */
static uint32_t arrives_changed(size_t at, unsigned more, uint64_t now)
{
    unsigned char bytes[TCPCORE_EMIT_ROOM];
    struct tcpcore_connection_segment segment;
    struct tcpcore_arrive_report report;
    CHECK(tcpcore_connection_acknowledge(&a, now), TCPCORE_DONE);
    CHECK(tcpcore_connection_emit(&a, now, UINT64_MAX, bytes, sizeof bytes, &segment), TCPCORE_DONE);
    change(bytes, at, more);
    return tcpcore_connection_arrive(&b, now, HERE, THERE, bytes, segment.length, &report);
}

/* It acknowledges a number that wasn't sent, which is answered, and brings nothing. */
static uint32_t arrives_bare(uint64_t now) { return arrives_changed(8, 1, now); }

/* It is a SYN in the window, which is challenged (RFC 9293, 3.10.7.4, fourth). */
static uint32_t arrives_with_syn(uint64_t now) { return arrives_changed(12, 2, now); }

static void answers_are_limited(void)
{
    begin();
    choose(&b, &DEFAULT);
    CHECK(arrives_bare(NOW), TCPCORE_DROPPED);
    loses(&b, NOW, 0);
    CHECK(arrives_bare(NOW + 1), TCPCORE_DROPPED);
    waits(&b, NOW + 1);
    CHECK(arrives_bare(NOW + 500 * MS - 1), TCPCORE_DROPPED);
    waits(&b, NOW + 500 * MS - 1);
    CHECK(arrives_bare(NOW + 500 * MS), TCPCORE_DROPPED);
    loses(&b, NOW + 500 * MS, 0);
    /* What answers text isn't limited. */
    sends(&a, NOW + 501 * MS, 1);
    CHECK(carry(&a, HERE, &b, NOW + 501 * MS), 1);
    loses(&b, NOW + 541 * MS, 0);
    free_both();
}

static void challenges_are_limited(void)
{
    begin();
    choose(&b, &DEFAULT);
    CHECK(arrives_with_syn(NOW), TCPCORE_DROPPED);
    loses(&b, NOW, 0);
    CHECK(arrives_with_syn(NOW + 1), TCPCORE_DROPPED);
    waits(&b, NOW + 1);
    CHECK(arrives_with_syn(NOW + 500 * MS), TCPCORE_DROPPED);
    loses(&b, NOW + 500 * MS, 0);
    free_both();
}

/* The SYN of a handshake, and the SYN,ACK that answers it first. */
struct opening {
    unsigned char syn[TCPCORE_EMIT_ROOM], answer[TCPCORE_EMIT_ROOM];
    struct tcpcore_connection_segment sent, answered;
};

/* `b` in SYN-RECEIVED at 0, with a policy or with none. */
static struct opening open_half(int has_policy)
{
    struct opening opening;
    struct tcpcore_arrive_report report;
    open_both();
    if (has_policy)
        choose(&b, &DEFAULT);
    CHECK(tcpcore_connection_emit(&a, 0, UINT64_MAX, opening.syn, sizeof opening.syn, &opening.sent), TCPCORE_DONE);
    CHECK(tcpcore_connection_arrive(&b, 0, HERE, THERE, opening.syn, opening.sent.length, &report), TCPCORE_DONE);
    CHECK(tcpcore_connection_emit(&b, 0, UINT64_MAX, opening.answer, sizeof opening.answer, &opening.answered), TCPCORE_DONE);
    CHECK(opening.answer[13], 0x12);
    return opening;
}

/* The SYN comes again, its word at a place so much more: one segment of so many bytes answers it at once, with these flags, or none. */
static void again(const struct opening *opening, size_t at, unsigned more, uint64_t now, size_t length, unsigned char flags)
{
    unsigned char syn[TCPCORE_EMIT_ROOM], answer[TCPCORE_EMIT_ROOM];
    struct tcpcore_connection_segment answered;
    struct tcpcore_arrive_report report;
    memcpy(syn, opening->syn, opening->sent.length);
    change(syn, at, more);
    CHECK(tcpcore_connection_arrive(&b, now, HERE, THERE, syn, opening->sent.length, &report), TCPCORE_DROPPED);
    if (length != 0) {
        CHECK(tcpcore_connection_emit(&b, now, UINT64_MAX, answer, sizeof answer, &answered), TCPCORE_DONE);
        CHECK(answered.length, length);
        CHECK(answer[13], flags);
        /* A SYN,ACK is the one that went out first: its numbers, its window and its options. */
        CHECK(length > 20 && memcmp(answer, opening->answer, length) != 0, 0);
        CHECK(answer[11] - opening->syn[7], 1);
    }
    waits(&b, now);
}

/* In SYN-RECEIVED the peer's SYN again is answered by the SYN,ACK again each time, and what is none by an acknowledgement. */
static void syn_again_draws_the_syn_ack(void)
{
    struct tcpcore_arrive_report report;
    struct opening opening = open_half(1);
    size_t length = opening.answered.length;
    /* The timer starts anew with the first of them, and not with those behind it. It hasn't expired, and isn't backed off. */
    for (uint64_t now = 500 * MS; now < 505 * MS; now += MS) {
        again(&opening, 16, 0, now, length, 0x12);
        CHECK(poll_at(&b), 500 * MS + SECOND);
    }
    /* SYN,ACK, a reset, and SYNs with other numbers: RCV.NXT, and one outside of the window. */
    again(&opening, 12, 0x10, 505 * MS, 20, 0x10);
    again(&opening, 12, 4, 506 * MS, 0, 0);
    again(&opening, 6, 1, 507 * MS, 20, 0x10);
    again(&opening, 6, 2000, 508 * MS, 20, 0x10);
    /* The handshake goes on from the SYN,ACK; behind it a SYN is answered by an acknowledgement. */
    again(&opening, 16, 0, 510 * MS, length, 0x12);
    CHECK(tcpcore_connection_arrive(&a, 520 * MS, THERE, HERE, opening.answer, length, &report), TCPCORE_DONE);
    CHECK(carry(&a, HERE, &b, 520 * MS), 1);
    CHECK(status_of(&b).phase, TCPCORE_PHASE_ESTABLISHED);
    again(&opening, 16, 0, 530 * MS, 20, 0x10);
    /* No round trip was measured, since which SYN,ACK was acknowledged isn't known (RFC 6298, 3): the timeout is still the first. */
    sends(&b, 600 * MS, 1);
    loses(&b, 600 * MS, 1);
    CHECK(poll_at(&b), 600 * MS + SECOND);
    free_both();
    /* Without a policy the acknowledgement answers it (RFC 9293, 3.10.7.4, first). */
    opening = open_half(0);
    again(&opening, 16, 0, 500 * MS, 20, 0x10);
    CHECK(poll_at(&b), SECOND);
    free_both();
}

static void trains_are_full(void)
{
    static unsigned char out[TCPCORE_TRAIN_ROOM];
    struct tcpcore_train train;
    begin();
    choose(&a, &DEFAULT);
    /* What goes out as one is full segments, and what is left of the text waits (RFC 9293, 3.8.6.2.1). */
    sends(&a, NOW, FULL + FULL / 2);
    CHECK(tcpcore_connection_emit_train(&a, NOW, UINT64_MAX, out, sizeof out, 10, &train), TCPCORE_DONE);
    CHECK(train.whole.count, FULL);
    CHECK(train.segments, 1);
    CHECK(tcpcore_connection_emit_train(&a, NOW, UINT64_MAX, out, sizeof out, 10, &train), TCPCORE_NOT_DUE);
    CHECK(poll_at(&a), NOW + 500 * MS);
    free_both();
    /* Without the Nagle algorithm it goes with them where the window has room for all of it, and else it waits. */
    struct tcpcore_policy policy = DEFAULT;
    policy.nagle = 0;
    begin();
    choose(&a, &policy);
    sends(&a, NOW, FULL + FULL / 2);
    CHECK(tcpcore_connection_emit_train(&a, NOW, UINT64_MAX, out, sizeof out, 10, &train), TCPCORE_DONE);
    CHECK(train.whole.count, FULL + FULL / 2);
    CHECK(train.segments, 2);
    free_both();
    begin();
    choose(&a, &policy);
    sends(&a, NOW, 200);
    CHECK(carry(&a, HERE, &b, NOW), 1);
    CHECK(carry(&b, THERE, &a, NOW), 1);
    CHECK(status_of(&a).snd_wnd, CAPACITY - 200);
    sends(&a, NOW, CAPACITY);
    CHECK(tcpcore_connection_emit_train(&a, NOW, UINT64_MAX, out, sizeof out, 10, &train), TCPCORE_DONE);
    CHECK(train.whole.count, FULL);
    CHECK(tcpcore_connection_emit_train(&a, NOW, UINT64_MAX, out, sizeof out, 10, &train), TCPCORE_NOT_DUE);
    free_both();
}

/* A turn of one side's loop: a timer may expire, and what is due goes out and comes at once. How many segments that is. */
static size_t takes_a_turn(tcpcore_connection *from, tcpcore_addr src, tcpcore_connection *to, uint64_t now)
{
    unsigned char bytes[TCPCORE_EMIT_ROOM];
    struct tcpcore_connection_segment segment;
    struct tcpcore_arrive_report report;
    uint32_t timer;
    size_t count = 0;
    tcpcore_connection_timeout(from, now, &timer);
    while (tcpcore_connection_emit(from, now, UINT64_MAX, bytes, sizeof bytes, &segment) == TCPCORE_DONE) {
        tcpcore_connection_arrive(to, now, src, segment.to, bytes, segment.length, &report);
        count++;
    }
    return count;
}

/* Both go on from one time until another, each at the time that it asks for. How many segments went out; no turn in which none did left a time
 * that had come. */
static size_t goes_on(uint64_t now, uint64_t until)
{
    size_t count = 0;
    for (int turns = 0; turns < 20000; turns++) {
        size_t went = takes_a_turn(&a, HERE, &b, now) + takes_a_turn(&b, THERE, &a, now);
        count += went;
        if (went > 0)
            continue;
        uint64_t first = poll_at(&a), next = poll_at(&b);
        next = first < next ? first : next;
        if (next > until)
            return count;
        CHECK(next > now, 1);
        now = next;
    }
    CHECK(0, 1);
    return count;
}

static void both_go_on(void)
{
    /* Two ends whose windows are shut don't answer each other for ever: in a minute each sends its text and some probes. */
    begin();
    choose(&a, &DEFAULT);
    choose(&b, &DEFAULT);
    sends(&a, 0, CAPACITY);
    sends(&b, 0, CAPACITY);
    CHECK(goes_on(0, NOW) <= 20, 1);
    sends(&a, NOW, CAPACITY);
    sends(&b, NOW, CAPACITY);
    CHECK(goes_on(NOW, NOW + 60 * SECOND) <= 60, 1);
    free_both();
    /* Text goes both ways, and no turn is for nothing. */
    begin();
    choose(&a, &DEFAULT);
    choose(&b, &DEFAULT);
    sends(&a, 0, 5);
    sends(&b, 0, 730);
    goes_on(0, 100 * MS);
    sends(&a, 100 * MS, 333);
    goes_on(100 * MS, NOW);
    reads(&a, NOW, 730);
    reads(&b, NOW, 338);
    goes_on(NOW, NOW + 4 * SECOND);
    CHECK(poll_at(&a), TCPCORE_NEVER);
    CHECK(poll_at(&b), TCPCORE_NEVER);
    free_both();
}

static void refusals(void)
{
    CHECK(tcpcore_connection_set_policy(&a, &DEFAULT), TCPCORE_NO_END);
    CHECK(tcpcore_connection_set_policy(NULL, &DEFAULT), TCPCORE_NULL);
    CHECK(tcpcore_connection_set_policy(&a, NULL), TCPCORE_NULL);
    begin();
    CHECK(tcpcore_connection_set_policy(&a, NULL), TCPCORE_NULL);
    tcpcore_connection copy = a;
    CHECK(tcpcore_connection_set_policy(&copy, &DEFAULT), TCPCORE_COPIED);
    /* More than 499,999 µs are as many (RFC 9293, 3.8.6.3). */
    struct tcpcore_policy policy = {.ack_delay = SECOND, .override_timeout = TCPCORE_NEVER};
    choose(&b, &policy);
    sends(&a, NOW, 1);
    CHECK(carry(&a, HERE, &b, NOW), 1);
    CHECK(poll_at(&b), NOW + 499999);
    /* Another policy: nothing waits any more. */
    policy.ack_delay = 0;
    choose(&b, &policy);
    loses(&b, NOW, 0);
    free_both();
}

int main(void)
{
    delayed_acknowledgements();
    what_cannot_wait();
    nagle();
    silly_windows();
    windows_are_advertised();
    answers_are_limited();
    challenges_are_limited();
    syn_again_draws_the_syn_ack();
    trains_are_full();
    both_go_on();
    refusals();
    printf("policy: what waits, and how long\n");
    return checks > 100 ? 0 : 1;
}
