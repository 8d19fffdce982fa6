/*
 * The test of what tcpcore_arrive_with_report and tcpcore_transmit report, beside the answers: each value is worked out by hand from RFC 9293,
 * 3.10.7, and RFC 5681, 2 and 4.2. A is at 10.0.0.1 port 1 with the initial sequence number 1000, B at 10.0.0.2 port 2 with 5000.
 */
#include "check.h"
#include "tcpcore.h"

#include <string.h>

static const tcpcore_addr A = {{10, 0, 0, 1}}, B = {{10, 0, 0, 2}};
static tcpcore_end a = TCPCORE_END_INIT, b = TCPCORE_END_INIT;

struct segment {
    tcpcore_addr to;
    size_t length;
    unsigned char bytes[TCPCORE_EMIT_ROOM];
};

static void make(tcpcore_end *end, tcpcore_addr addr, uint16_t port, uint32_t isn, uint64_t recv_capacity)
{
    static unsigned char blocks[2][TCPCORE_MEMORY(1000, 1000)];
    tcpcore_config config = {.addr = addr, .port = port, .mss = 100, .isn = isn, .send_capacity = 1000,
                             .recv_capacity = recv_capacity, .limit = TCPCORE_LIMIT};
    CHECK(tcpcore_new(end, &config, blocks[end == &b], sizeof *blocks), TCPCORE_DONE);
}

static void is_zero(const uint32_t *words, size_t count)
{
    for (size_t i = 0; i < count; i++)
        CHECK(words[i], 0);
}

/* The segment that is due is one of this kind, begins there and has so much text. */
static struct segment goes(tcpcore_end *end, uint32_t kind, uint64_t position, uint64_t count, uint64_t length)
{
    struct tcpcore_transmit next, sent;
    struct segment segment;
    uint32_t pending;
    memset(&next, 7, sizeof next);
    memset(&sent, 7, sizeof sent);
    CHECK(tcpcore_pending(end, &pending), TCPCORE_DONE);
    CHECK(pending, length);
    CHECK(tcpcore_next(end, &next), TCPCORE_DONE);
    CHECK(tcpcore_transmit(end, segment.bytes, sizeof segment.bytes, &sent), TCPCORE_DONE);
    CHECK(memcmp(&next, &sent, sizeof sent), 0);
    CHECK(sent.kind, kind);
    CHECK(sent.position, position);
    CHECK(sent.count, count);
    CHECK(sent.length, length);
    CHECK(memcmp(&sent.to, end == &a ? &B : &A, sizeof sent.to), 0);
    is_zero(sent.reserved, sizeof sent.reserved / sizeof *sent.reserved);
    segment.to = sent.to;
    segment.length = (size_t)sent.length;
    return segment;
}

static void nothing_goes(tcpcore_end *end)
{
    struct tcpcore_transmit next, sent, none = {.kind = TCPCORE_KIND_NONE};
    unsigned char out[TCPCORE_EMIT_ROOM];
    memset(&next, 7, sizeof next);
    memset(&sent, 7, sizeof sent);
    CHECK(tcpcore_next(end, &next), TCPCORE_NOT_DUE);
    CHECK(tcpcore_transmit(end, out, sizeof out, &sent), TCPCORE_NOT_DUE);
    CHECK(memcmp(&next, &none, sizeof none), 0);
    CHECK(memcmp(&sent, &none, sizeof none), 0);
}

/* What is reported of an arrival, in the order of the struct. */
struct wanted {
    uint32_t at_once, rule;
    uint64_t acked;
    uint32_t brought, is_duplicate, window_taken;
};

static void comes_from(tcpcore_addr src, tcpcore_end *end, const struct segment *segment, uint32_t answer, struct wanted wanted)
{
    struct tcpcore_arrive_report taken;
    memset(&taken, 7, sizeof taken);
    CHECK(tcpcore_arrive_with_report(end, src, segment->to, segment->bytes, segment->length, &taken), answer);
    CHECK(taken.at_once, wanted.at_once);
    CHECK(taken.rule, wanted.rule);
    CHECK(taken.acked, wanted.acked);
    CHECK(taken.brought, wanted.brought);
    CHECK(taken.is_duplicate, wanted.is_duplicate);
    CHECK(taken.window_taken, wanted.window_taken);
    is_zero(taken.reserved, sizeof taken.reserved / sizeof *taken.reserved);
}

static void comes(tcpcore_end *end, const struct segment *segment, uint32_t answer, struct wanted wanted)
{
    comes_from(end == &a ? B : A, end, segment, answer, wanted);
}

static struct tcpcore_status status_of(const tcpcore_end *end)
{
    struct tcpcore_status status;
    CHECK(tcpcore_status(end, &status), TCPCORE_DONE);
    return status;
}

/* A SYN, its answer, and the acknowledgement, from which B takes its first window. */
static void handshake(void)
{
    make(&a, A, 1, 1000, 1000);
    make(&b, B, 2, 5000, 300);
    CHECK(tcpcore_listen(&b), TCPCORE_DONE);
    nothing_goes(&b);
    CHECK(tcpcore_connect(&a, B, 2), TCPCORE_DONE);
    struct segment syn = goes(&a, TCPCORE_KIND_SYN, 0, 0, 24);
    nothing_goes(&a);
    comes(&b, &syn, TCPCORE_DONE, (struct wanted){1, TCPCORE_RULE_PEER_OPENS, 0, TCPCORE_BROUGHT_NOTHING, 0, 0});
    struct segment answer = goes(&b, TCPCORE_KIND_SYN, 0, 0, 24);
    comes(&a, &answer, TCPCORE_DONE, (struct wanted){1, TCPCORE_RULE_PEER_ACCEPTS, 0, TCPCORE_BROUGHT_NOTHING, 0, 1});
    struct segment ack = goes(&a, TCPCORE_KIND_ACKNOWLEDGEMENT, 1, 0, 20);
    comes(&b, &ack, TCPCORE_DONE, (struct wanted){0, TCPCORE_RULE_TAKEN, 0, TCPCORE_BROUGHT_NOTHING, 0, 1});
    CHECK(status_of(&a).snd_nxt, 1);
    CHECK(status_of(&b).rcv_wnd, 300);
}

/* Of 250 bytes in three segments the second is lost: the third is held, and what answers it is a duplicate. */
static struct segment transfer(void)
{
    static const unsigned char text[250];
    size_t taken;
    CHECK(tcpcore_send(&a, text, sizeof text, &taken), TCPCORE_DONE);
    struct segment first = goes(&a, TCPCORE_KIND_NEW_TEXT, 1, 100, 120);
    goes(&a, TCPCORE_KIND_NEW_TEXT, 101, 100, 120);
    struct segment third = goes(&a, TCPCORE_KIND_NEW_TEXT, 201, 50, 70);
    CHECK(status_of(&a).snd_nxt, 251);
    CHECK(status_of(&a).snd_una, 1);
    comes(&b, &first, TCPCORE_DONE, (struct wanted){0, TCPCORE_RULE_TAKEN, 0, TCPCORE_BROUGHT_IN_ORDER, 0, 1});
    struct segment ack = goes(&b, TCPCORE_KIND_ACKNOWLEDGEMENT, 1, 0, 20);
    comes(&b, &third, TCPCORE_DONE, (struct wanted){1, TCPCORE_RULE_TAKEN, 0, TCPCORE_BROUGHT_HELD, 0, 1});
    struct segment duplicate = goes(&b, TCPCORE_KIND_ACKNOWLEDGEMENT, 1, 0, 20);
    CHECK(status_of(&b).rcv_wnd, 200);
    comes(&a, &ack, TCPCORE_DONE, (struct wanted){0, TCPCORE_RULE_TAKEN, 100, TCPCORE_BROUGHT_NOTHING, 0, 1});
    comes(&a, &duplicate, TCPCORE_DONE, (struct wanted){0, TCPCORE_RULE_TAKEN, 0, TCPCORE_BROUGHT_NOTHING, 1, 1});
    /* The same number with another window is a window update, and none. */
    unsigned char read[40];
    size_t count;
    CHECK(tcpcore_receive(&b, read, sizeof read, &count), TCPCORE_DONE);
    CHECK(tcpcore_acknowledge(&b), TCPCORE_DONE);
    struct segment update = goes(&b, TCPCORE_KIND_ACKNOWLEDGEMENT, 1, 0, 20);
    comes(&a, &update, TCPCORE_DONE, (struct wanted){0, TCPCORE_RULE_TAKEN, 0, TCPCORE_BROUGHT_NOTHING, 0, 1});
    CHECK(status_of(&a).snd_wnd, 240);
    /* All that is in flight goes out again, and fills the gap; what came before comes outside of the window. */
    CHECK(tcpcore_timer(&a, TCPCORE_TIMER_RETRANSMIT), TCPCORE_DONE);
    struct segment second = goes(&a, TCPCORE_KIND_TEXT_AGAIN, 101, 100, 120);
    goes(&a, TCPCORE_KIND_TEXT_AGAIN, 201, 50, 70);
    nothing_goes(&a);
    /* Its window isn't taken: the last one came with the third, which has a higher number. */
    comes(&b, &second, TCPCORE_DONE, (struct wanted){1, TCPCORE_RULE_TAKEN, 0, TCPCORE_BROUGHT_IN_ORDER, 0, 0});
    comes(&b, &first, TCPCORE_DROPPED, (struct wanted){1, TCPCORE_RULE_UNACCEPTABLE, 0, TCPCORE_BROUGHT_NOT_KEPT, 0, 0});
    struct segment all = goes(&b, TCPCORE_KIND_ACKNOWLEDGEMENT, 1, 0, 20);
    comes(&a, &all, TCPCORE_DONE, (struct wanted){0, TCPCORE_RULE_TAKEN, 150, TCPCORE_BROUGHT_NOTHING, 0, 1});
    /* One that is older than SND.UNA brings no window, and one that acknowledges nothing in flight is no duplicate. */
    comes(&a, &ack, TCPCORE_DONE, (struct wanted){0, TCPCORE_RULE_TAKEN, 0, TCPCORE_BROUGHT_NOTHING, 0, 0});
    comes(&a, &all, TCPCORE_DONE, (struct wanted){0, TCPCORE_RULE_TAKEN, 0, TCPCORE_BROUGHT_NOTHING, 0, 1});
    return third;
}

/* B's FIN, and the same again; bytes for nobody, and A's reset. */
static void ends(const struct segment *text)
{
    CHECK(status_of(&b).closing, 0);
    CHECK(tcpcore_close(&b), TCPCORE_DONE);
    CHECK(status_of(&b).closing, 1);
    CHECK(status_of(&a).finished, 0);
    struct segment fin = goes(&b, TCPCORE_KIND_FIN, 1, 0, 20);
    comes(&a, &fin, TCPCORE_DONE, (struct wanted){1, TCPCORE_RULE_TAKEN, 0, TCPCORE_BROUGHT_IN_ORDER, 0, 1});
    CHECK(status_of(&a).finished, 1);
    CHECK(status_of(&b).snd_nxt, 2);
    CHECK(tcpcore_timer(&b, TCPCORE_TIMER_RETRANSMIT), TCPCORE_DONE);
    struct segment again = goes(&b, TCPCORE_KIND_FIN_AGAIN, 1, 0, 20);
    comes(&a, &again, TCPCORE_DROPPED, (struct wanted){1, TCPCORE_RULE_UNACCEPTABLE, 0, TCPCORE_BROUGHT_NOT_KEPT, 0, 0});
    struct segment answer = goes(&a, TCPCORE_KIND_ACKNOWLEDGEMENT, 251, 0, 20), bad = answer;
    bad.length = 19;
    comes(&b, &bad, TCPCORE_TOO_SHORT, (struct wanted){0, TCPCORE_RULE_NONE, 0, TCPCORE_BROUGHT_NOTHING, 0, 0});
    comes_from(A, &a, text, TCPCORE_NOT_MINE, (struct wanted){0, TCPCORE_RULE_FOREIGN, 0, TCPCORE_BROUGHT_NOT_KEPT, 0, 0});
    CHECK(tcpcore_abort(&a), TCPCORE_DONE);
    struct segment reset = goes(&a, TCPCORE_KIND_RESET, 0, 0, 20);
    comes(&b, &reset, TCPCORE_DONE, (struct wanted){0, TCPCORE_RULE_PEER_RESETS, 0, TCPCORE_BROUGHT_NOTHING, 0, 0});
    comes(&b, &answer, TCPCORE_DROPPED, (struct wanted){1, TCPCORE_RULE_STRAY, 0, TCPCORE_BROUGHT_NOTHING, 0, 0});
}

int main(void)
{
    handshake();
    struct segment text = transfer();
    ends(&text);
    CHECK(tcpcore_free(&a), TCPCORE_DONE);
    CHECK(tcpcore_free(&b), TCPCORE_DONE);
    printf("reports: as the standard has them\n");
    return 0;
}
