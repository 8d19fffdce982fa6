/*
 * The test of tcpcore_emit_acknowledgement, tcpcore_resend_first and tcpcore_resend: each number is worked out by hand from RFC 9293, 3.8, RFC 5681,
 * 3.2, and RFC 6582, 3.2. A is at 10.0.0.1 port 1 with the initial sequence number 1000, B at 10.0.0.2 port 2 with 5000; the MSS is
 * 100.
 */
#include "carry.h"
#include "check.h"
#include "tcpcore.h"

#include <string.h>

static const tcpcore_addr A = {{10, 0, 0, 1}}, B = {{10, 0, 0, 2}};
static tcpcore_end a = TCPCORE_END_INIT, b = TCPCORE_END_INIT;

struct segment {
    tcpcore_addr to;
    size_t length;
    unsigned char bytes[TCPCORE_EMIT_ROOM];
};

static void make(tcpcore_end *end, tcpcore_addr addr, uint16_t port, uint32_t isn)
{
    static unsigned char blocks[2][TCPCORE_MEMORY(1000, 1000)];
    tcpcore_config config = {.addr = addr, .port = port, .mss = 100, .isn = isn, .send_capacity = 1000, .recv_capacity = 1000,
                             .limit = TCPCORE_LIMIT};
    CHECK(tcpcore_new(end, &config, blocks[end == &b], sizeof *blocks), TCPCORE_DONE);
}

static void send_bytes(tcpcore_end *end, size_t count)
{
    static const unsigned char text[1000] = {0};
    size_t taken;
    CHECK(tcpcore_send(end, text, count, &taken), TCPCORE_DONE);
    CHECK(taken, count);
}

static uint32_t number_at(const unsigned char *bytes)
{
    return (uint32_t)bytes[0] << 24 | (uint32_t)bytes[1] << 16 | (uint32_t)bytes[2] << 8 | bytes[3];
}

/* It begins at this sequence number, acknowledges up to that one, and has so much text. */
static void says(const struct segment *segment, uint32_t seq, uint32_t ack, size_t text)
{
    CHECK(number_at(segment->bytes + 4), seq);
    CHECK(number_at(segment->bytes + 8), ack);
    CHECK(segment->length, 20 + text);
}

static struct segment emitted(tcpcore_end *end)
{
    struct segment segment;
    CHECK(tcpcore_emit(end, segment.bytes, sizeof segment.bytes, &segment.to, &segment.length), TCPCORE_DONE);
    return segment;
}

static struct segment acknowledged(tcpcore_end *end)
{
    struct segment segment;
    CHECK(tcpcore_emit_acknowledgement(end, segment.bytes, sizeof segment.bytes, &segment.to, &segment.length), TCPCORE_DONE);
    return segment;
}

static void none(tcpcore_end *end)
{
    struct segment segment;
    segment.length = 7;
    CHECK(tcpcore_emit_acknowledgement(end, segment.bytes, sizeof segment.bytes, &segment.to, &segment.length), TCPCORE_NOT_DUE);
    CHECK(segment.length, 0);
}

static void none_at_all(tcpcore_end *end)
{
    struct segment segment;
    none(end);
    CHECK(tcpcore_emit(end, segment.bytes, sizeof segment.bytes, &segment.to, &segment.length), TCPCORE_NOT_DUE);
}

/* Before a handshake, and where a SYN comes first, there is no acknowledgement alone, and nothing to be sent again. */
static void opening(void)
{
    none_at_all(&a);
    CHECK(tcpcore_resend_first(&a), TCPCORE_NO_RULE);
    CHECK(tcpcore_listen(&b), TCPCORE_DONE);
    CHECK(tcpcore_connect(&a, B, 2), TCPCORE_DONE);
    none(&a);
    carry(&a, A, &b);
    none(&b);
    CHECK(tcpcore_resend_first(&b), TCPCORE_NO_RULE);
    carry(&b, B, &a);
    carry(&a, A, &b);
    none_at_all(&a);
    none_at_all(&b);
}

/* Three segments of A are lost and all are due again, as B's text arrives: its acknowledgement goes out before them. */
static void alone(void)
{
    struct segment segment;
    send_bytes(&a, 250);
    for (uint32_t i = 0; i < 3; i++) {
        segment = emitted(&a);
        says(&segment, 1001 + 100 * i, 5001, i < 2 ? 100 : 50);
    }
    CHECK(tcpcore_timer(&a, TCPCORE_TIMER_RETRANSMIT), TCPCORE_DONE);
    send_bytes(&b, 10);
    carry(&b, B, &a);
    segment = acknowledged(&a);
    says(&segment, 1251, 5011, 0);
    none(&a);
    segment = emitted(&a);
    says(&segment, 1001, 5011, 100);
}

/* The first segment takes the place of the two that were left; B has had nothing before it. Then there is nothing due. */
static void first(void)
{
    struct segment segment;
    CHECK(tcpcore_resend_first(&a), TCPCORE_DONE);
    segment = emitted(&a);
    says(&segment, 1001, 5011, 100);
    none_at_all(&a);
    CHECK(tcpcore_arrive(&b, A, B, segment.bytes, segment.length), TCPCORE_DONE);
    carry(&b, B, &a);
    /* A partial acknowledgement: the next segment. */
    CHECK(tcpcore_resend_first(&a), TCPCORE_DONE);
    send_bytes(&a, 30);
    segment = emitted(&a);
    says(&segment, 1101, 5011, 100);
    CHECK(tcpcore_arrive(&b, A, B, segment.bytes, segment.length), TCPCORE_DONE);
    segment = emitted(&a);
    says(&segment, 1251, 5011, 30);
    none_at_all(&a);
}

/* With the FIN in flight behind so much text: where the text leaves room for it in a segment of 100 bytes it goes out again, too, by
   itself; behind a full segment it doesn't. */
static void fin_behind(uint32_t text)
{
    CHECK(tcpcore_free(&a), TCPCORE_DONE);
    CHECK(tcpcore_free(&b), TCPCORE_DONE);
    make(&a, A, 1, 1000);
    make(&b, B, 2, 5000);
    opening();
    send_bytes(&a, text);
    CHECK(tcpcore_close(&a), TCPCORE_DONE);
    for (int times = 0; times < 2; times++) {
        struct segment segment = emitted(&a);
        says(&segment, 1001, 5001, text);
        CHECK(segment.bytes[13] & 1, 0);
        if (times == 0 || text < 100) {
            segment = emitted(&a);
            says(&segment, 1001 + text, 5001, 0);
            CHECK(segment.bytes[13] & 1, 1);
        }
        none_at_all(&a);
        CHECK(tcpcore_resend_first(&a), TCPCORE_DONE);
    }
}

/* Of three segments in flight the second one again, the end of the first and the begin of the second, and nothing before or behind. */
static void stretch(void)
{
    struct segment segment;
    CHECK(tcpcore_free(&a), TCPCORE_DONE);
    CHECK(tcpcore_free(&b), TCPCORE_DONE);
    make(&a, A, 1, 1000);
    make(&b, B, 2, 5000);
    opening();
    CHECK(tcpcore_resend(&a, 0, UINT64_MAX), TCPCORE_NO_RULE);
    send_bytes(&a, 300);
    for (uint32_t i = 0; i < 3; i++)
        emitted(&a);
    CHECK(tcpcore_resend(&a, 101, 201), TCPCORE_DONE);
    segment = emitted(&a);
    says(&segment, 1101, 5001, 100);
    none_at_all(&a);
    CHECK(tcpcore_resend(&a, 51, 161), TCPCORE_DONE);
    segment = emitted(&a);
    says(&segment, 1051, 5001, 100);
    segment = emitted(&a);
    says(&segment, 1151, 5001, 10);
    CHECK(tcpcore_resend(&a, 301, 400), TCPCORE_NO_RULE);
    CHECK(tcpcore_resend(&a, 201, 201), TCPCORE_NO_RULE);
    none_at_all(&a);
}

int main(void)
{
    make(&a, A, 1, 1000);
    make(&b, B, 2, 5000);
    opening();
    alone();
    first();
    CHECK(tcpcore_abort(&a), TCPCORE_DONE);
    none(&a);
    CHECK(tcpcore_resend_first(&a), TCPCORE_NO_RULE);
    fin_behind(99);
    fin_behind(100);
    stretch();
    printf("pacing: %d checks\n", checks);
    return 0;
}
