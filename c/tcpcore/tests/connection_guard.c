/*
 * The test of what a connection keeps out: segments of somebody who sees nothing of it, past its guard (RFC 5961, 5.2); bytes that a device
 * vouches for; and in TIME-WAIT any FIN but the peer's own (RFC 9293, 3.10.7.4, eighth).
 */
#include "connection.h"
#include "sums.h"

/* A segment from THERE's address and port to HERE's, with an acknowledgement, this text and no checksum. */
static size_t unsummed(unsigned char *segment, uint32_t seq, uint32_t ack, const char *text)
{
    memset(segment, 0, 20);
    put16(segment, 9);
    put16(segment + 2, 9);
    put16(segment + 4, seq >> 16);
    put16(segment + 6, seq & 0xffff);
    put16(segment + 8, ack >> 16);
    put16(segment + 10, ack & 0xffff);
    segment[12] = 5 << 4;
    segment[13] = 0x10;
    put16(segment + 14, 1000);
    memcpy(segment + 20, text, strlen(text));
    return 20 + strlen(text);
}

/* What THERE sends to HERE, with the right checksum (RFC 9293, 3.1). */
static uint32_t comes(uint32_t seq, uint32_t ack, const char *text, uint32_t *rule)
{
    unsigned char segment[40];
    struct tcpcore_arrive_report report;
    size_t length = unsummed(segment, seq, ack, text);
    put16(segment + 16, ~summed(pseudo(THERE, HERE, length), segment, length) & 0xffff);
    uint32_t answer = tcpcore_connection_arrive(&a, 0, THERE, HERE, segment, length, &report);
    *rule = report.rule;
    return answer;
}

/* Both ends in ESTABLISHED, HERE's with this guard. */
static void establish_guarded(uint32_t guard)
{
    struct tcpcore_connection_rules rules = TCPCORE_CONNECTION_RULES_DEFAULT;
    tcpcore_config config = good_config(HERE);
    rules.guard = guard;
    CHECK(connects(&config, &rules), TCPCORE_DONE);
    config = good_config(THERE);
    CHECK(tcpcore_connection_listen(&b, &config, &rules, 0, blocks[1], sizeof *blocks), TCPCORE_DONE);
    CHECK(carry(&a, HERE, &b, 0), 1);
    CHECK(carry(&b, THERE, &a, 0), 1);
    CHECK(carry(&a, HERE, &b, 0), 1);
}

/* How many segments are due; nothing of them arrives. */
static size_t count_due(tcpcore_connection *connection)
{
    unsigned char bytes[TCPCORE_EMIT_ROOM];
    struct tcpcore_connection_segment segment;
    size_t count = 0;
    while (tcpcore_connection_emit(connection, 0, UINT64_MAX, bytes, sizeof bytes, &segment) == TCPCORE_DONE)
        count++;
    return count;
}

/* SND.UNA and RCV.NXT are 2. With a guard of `reach` an acknowledgement that far behind is taken, and of one number more what it comes
   with is kept out (RFC 5961, 5.2), as by RFC 9293 it isn't; an acknowledgement is then due. */
static void keeps_out(uint32_t guard, uint32_t reach)
{
    uint32_t rule;
    establish_guarded(guard);
    CHECK(comes(2, 2 - reach - 1, "x", &rule), guard == TCPCORE_NO_GUARD ? TCPCORE_DONE : TCPCORE_DROPPED);
    CHECK(rule, guard == TCPCORE_NO_GUARD ? TCPCORE_RULE_TAKEN : TCPCORE_RULE_UNACCEPTABLE);
    CHECK(status_of(&a).unread, guard == TCPCORE_NO_GUARD ? 1 : 0);
    CHECK(count_due(&a), 1);
    CHECK(comes((uint32_t)status_of(&a).rcv_position + 1, 2 - reach, "y", &rule), TCPCORE_DONE);
    CHECK(rule, TCPCORE_RULE_TAKEN);
    free_both();
}

/* While the window is shut an acknowledgement alone needs no sequence number by RFC 9293, and releases what is in flight. */
static void keeps_out_shut(uint32_t guard)
{
    static const unsigned char text[CAPACITY];
    uint32_t rule;
    size_t count;
    establish_guarded(guard);
    CHECK(tcpcore_connection_send(&b, 0, text, sizeof text, &count), TCPCORE_DONE);
    CHECK(carry(&b, THERE, &a, 0), 1);
    CHECK(status_of(&a).rcv_wnd, 0);
    CHECK(carry(&a, HERE, &b, 0), 1);
    lose_text();
    CHECK(comes(2 + CAPACITY + 5000000, 2 + 10, "", &rule), guard == TCPCORE_NO_GUARD ? TCPCORE_DONE : TCPCORE_DROPPED);
    CHECK(rule, guard == TCPCORE_NO_GUARD ? TCPCORE_RULE_TAKEN_SHUT : TCPCORE_RULE_UNACCEPTABLE);
    CHECK(status_of(&a).released, guard == TCPCORE_NO_GUARD ? 10 : 0);
    CHECK(comes(2 + CAPACITY, 2 + 10, "", &rule), TCPCORE_DONE);
    CHECK(status_of(&a).released, 10);
    free_both();
}

static void guards(void)
{
    CHECK(RULES.guard, TCPCORE_GUARD);
    keeps_out(TCPCORE_GUARD, TCPCORE_GUARD);
    keeps_out(0, TCPCORE_GUARD);
    keeps_out(5000000, 5000000);
    keeps_out(TCPCORE_NO_GUARD, TCPCORE_GUARD);
    keeps_out_shut(TCPCORE_GUARD);
    keeps_out_shut(0);
    keeps_out_shut(TCPCORE_NO_GUARD);
}

/* A device vouches for what isn't summed here, and the guard is the same. */
static void vouches(void)
{
    unsigned char segment[40];
    struct tcpcore_arrive_report report;
    establish_guarded(TCPCORE_GUARD);
    size_t length = unsummed(segment, 2, 2, "x");
    CHECK(tcpcore_connection_arrive(&a, 0, THERE, HERE, segment, length, &report), TCPCORE_BAD_CHECKSUM);
    CHECK(tcpcore_connection_arrive_vouched(&a, 0, THERE, HERE, segment, length, &report), TCPCORE_DONE);
    CHECK(report.brought, TCPCORE_BROUGHT_IN_ORDER);
    length = unsummed(segment, 3, 2 - TCPCORE_GUARD - 1, "y");
    CHECK(tcpcore_connection_arrive_vouched(&a, 0, THERE, HERE, segment, length, &report), TCPCORE_DROPPED);
    CHECK(status_of(&a).unread, 1);
    free_both();
}

/* A FIN with this sequence number comes from THERE to HERE, in TIME-WAIT; when that then ends. */
static uint64_t ends_behind_fin(uint32_t seq, uint64_t now)
{
    unsigned char segment[40];
    struct tcpcore_arrive_report report;
    size_t length = unsummed(segment, seq, 3, "");
    segment[13] |= 1;
    uint32_t answer = tcpcore_connection_arrive_vouched(&a, now, THERE, HERE, segment, length, &report);
    CHECK(answer == TCPCORE_DONE || answer == TCPCORE_DROPPED, 1);
    return poll_at(&a);
}

/* TIME-WAIT begins anew with the peer's FIN, whose number is 2, the one before RCV.NXT, and with no other (RFC 9293, 3.10.7.4, eighth). */
static void time_waits(void)
{
    establish(0);
    CHECK(tcpcore_connection_close(&a, 0), TCPCORE_DONE);
    CHECK(carry(&a, HERE, &b, 0), 1);
    CHECK(carry(&b, THERE, &a, 0), 1);
    CHECK(tcpcore_connection_close(&b, 0), TCPCORE_DONE);
    CHECK(carry(&b, THERE, &a, 0), 1);
    CHECK(status_of(&a).phase, TCPCORE_PHASE_TIME_WAIT);
    CHECK(poll_at(&a), RULES.time_wait);
    CHECK(ends_behind_fin(3, 10 * SECOND), RULES.time_wait);
    CHECK(ends_behind_fin(1, 10 * SECOND), RULES.time_wait);
    CHECK(ends_behind_fin(500000, 10 * SECOND), RULES.time_wait);
    CHECK(ends_behind_fin(2, 20 * SECOND), 20 * SECOND + RULES.time_wait);
    free_both();
}

int main(void)
{
    guards();
    vouches();
    time_waits();
    printf("connection_guard: a connection keeps out what is far from where it stands\n");
    return 0;
}
