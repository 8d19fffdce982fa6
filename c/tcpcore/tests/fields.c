/* The test of the structs: where each field lies, and each one, with its own value, read out of what an end does. */
#include "tcpcore.h"

#include <stdio.h>
#include <stdlib.h>

#define FIELD(type, field) printf(" %s %zu+%zu", #field, offsetof(type, field), sizeof((type){0}.field))

static const char *const PHASES[] = {
    [TCPCORE_PHASE_CLOSED] = "CLOSED",           [TCPCORE_PHASE_LISTEN] = "LISTEN",
    [TCPCORE_PHASE_SYN_SENT] = "SYN-SENT",       [TCPCORE_PHASE_SYN_RECEIVED] = "SYN-RECEIVED",
    [TCPCORE_PHASE_ESTABLISHED] = "ESTABLISHED", [TCPCORE_PHASE_FIN_WAIT_1] = "FIN-WAIT-1",
    [TCPCORE_PHASE_FIN_WAIT_2] = "FIN-WAIT-2",   [TCPCORE_PHASE_CLOSE_WAIT] = "CLOSE-WAIT",
    [TCPCORE_PHASE_CLOSING] = "CLOSING",         [TCPCORE_PHASE_LAST_ACK] = "LAST-ACK",
    [TCPCORE_PHASE_TIME_WAIT] = "TIME-WAIT"};
static const char *const ENDINGS[] = {
    [TCPCORE_ENDING_NOT_ENDED] = "not-ended", [TCPCORE_ENDING_ORDERLY] = "orderly", [TCPCORE_ENDING_RESET] = "reset",
    [TCPCORE_ENDING_ABORTED] = "aborted"};

struct side {
    const char *name;
    tcpcore_end end;
    tcpcore_config config;
};

/* Each field of a config has a value that no other field of it has. */
static struct side a = {
    "A", TCPCORE_END_INIT,
    {.addr = {{10, 1, 2, 3}}, .port = 4660, .mss = 1111, .isn = 2309737967, .send_capacity = 3000,
     .recv_capacity = 5001, .limit = 3210, .window_shift = 3, .scales = 1, .sack = 0}};
static struct side b = {
    "B", TCPCORE_END_INIT,
    {.addr = {{10, 4, 5, 6}}, .port = 22136, .mss = 1300, .isn = 16909060, .send_capacity = 700,
     .recv_capacity = 4000, .limit = 803, .window_shift = 5, .scales = 0, .sack = 2}};

static void need(const char *call, uint32_t answer)
{
    if (answer != TCPCORE_DONE) {
        printf("%s: %s\n", call, tcpcore_strerror(answer));
        exit(1);
    }
}

static void layout(void)
{
    printf("tcpcore_end:");
    FIELD(tcpcore_end, opaque);
    printf(" of %zu\ntcpcore_addr:", sizeof(tcpcore_end));
    FIELD(tcpcore_addr, byte);
    printf(" of %zu\ntcpcore_config:", sizeof(tcpcore_addr));
    FIELD(tcpcore_config, addr);
    FIELD(tcpcore_config, port);
    FIELD(tcpcore_config, mss);
    FIELD(tcpcore_config, isn);
    FIELD(tcpcore_config, send_capacity);
    FIELD(tcpcore_config, recv_capacity);
    FIELD(tcpcore_config, limit);
    FIELD(tcpcore_config, window_shift);
    FIELD(tcpcore_config, scales);
    FIELD(tcpcore_config, sack);
    FIELD(tcpcore_config, runs);
    printf(" of %zu\ntcpcore_status:", sizeof(tcpcore_config));
    FIELD(struct tcpcore_status, phase);
    FIELD(struct tcpcore_status, ending);
    FIELD(struct tcpcore_status, unread);
    FIELD(struct tcpcore_status, released);
    FIELD(struct tcpcore_status, ordered);
    FIELD(struct tcpcore_status, snd_una);
    FIELD(struct tcpcore_status, rcv_position);
    FIELD(struct tcpcore_status, room);
    FIELD(struct tcpcore_status, queued);
    FIELD(struct tcpcore_status, in_flight);
    FIELD(struct tcpcore_status, mss);
    FIELD(struct tcpcore_status, own_shift);
    FIELD(struct tcpcore_status, peer_shift);
    FIELD(struct tcpcore_status, scaling);
    FIELD(struct tcpcore_status, sack);
    FIELD(struct tcpcore_status, snd_wnd);
    FIELD(struct tcpcore_status, rcv_wnd);
    FIELD(struct tcpcore_status, snd_nxt);
    FIELD(struct tcpcore_status, closing);
    FIELD(struct tcpcore_status, finished);
    FIELD(struct tcpcore_status, reserved);
    printf(" of %zu\ntcpcore_arrive_report:", sizeof(struct tcpcore_status));
    FIELD(struct tcpcore_arrive_report, at_once);
    FIELD(struct tcpcore_arrive_report, rule);
    FIELD(struct tcpcore_arrive_report, acked);
    FIELD(struct tcpcore_arrive_report, brought);
    FIELD(struct tcpcore_arrive_report, is_duplicate);
    FIELD(struct tcpcore_arrive_report, window_taken);
    FIELD(struct tcpcore_arrive_report, reserved);
    printf(" of %zu\ntcpcore_transmit:", sizeof(struct tcpcore_arrive_report));
    FIELD(struct tcpcore_transmit, to);
    FIELD(struct tcpcore_transmit, kind);
    FIELD(struct tcpcore_transmit, length);
    FIELD(struct tcpcore_transmit, position);
    FIELD(struct tcpcore_transmit, count);
    FIELD(struct tcpcore_transmit, reserved);
    printf(" of %zu\ntcpcore_time_wait:", sizeof(struct tcpcore_transmit));
    FIELD(struct tcpcore_time_wait, mark);
    FIELD(struct tcpcore_time_wait, addr);
    FIELD(struct tcpcore_time_wait, peer_addr);
    FIELD(struct tcpcore_time_wait, port);
    FIELD(struct tcpcore_time_wait, peer_port);
    FIELD(struct tcpcore_time_wait, snd_nxt);
    FIELD(struct tcpcore_time_wait, rcv_nxt);
    FIELD(struct tcpcore_time_wait, rcv_wnd);
    FIELD(struct tcpcore_time_wait, reset_addr);
    FIELD(struct tcpcore_time_wait, reset_seq);
    FIELD(struct tcpcore_time_wait, reset_ack);
    FIELD(struct tcpcore_time_wait, reset_port);
    FIELD(struct tcpcore_time_wait, shift);
    FIELD(struct tcpcore_time_wait, ack);
    FIELD(struct tcpcore_time_wait, reset);
    FIELD(struct tcpcore_time_wait, ending);
    printf(" of %zu\n", sizeof(struct tcpcore_time_wait));
}

static void make(struct side *side)
{
    static unsigned char blocks[2][TCPCORE_MEMORY(3000, 5001)];
    need("new", tcpcore_new(&side->end, &side->config, blocks[side == &b], sizeof *blocks));
}

static unsigned int word(const unsigned char *at)
{
    return (unsigned int)at[0] << 8 | at[1];
}

/* The options of a SYN: kind 2 is the MSS, 3 the shift, 4 permits selective acknowledgement, 1 is between them. */
static void options(const unsigned char *at, const unsigned char *last)
{
    for (; at < last; at += at[0] == 1 ? 1 : at[1]) {
        if (at[0] == 2)
            printf(", mss %u", word(at + 2));
        if (at[0] == 3)
            printf(", shift %d", at[2]);
        if (at[0] == 4)
            printf(", sack permitted");
    }
}

/* What its SYN says of its config. */
static void first_syn(struct side *side, const struct side *peer)
{
    unsigned char out[TCPCORE_EMIT_ROOM];
    tcpcore_addr to;
    size_t length;
    make(side);
    need("connect", tcpcore_connect(&side->end, peer->config.addr, peer->config.port));
    need("emit", tcpcore_emit(&side->end, out, sizeof out, &to, &length));
    printf("SYN of %s: to %d.%d.%d.%d", side->name, to.byte[0], to.byte[1], to.byte[2], to.byte[3]);
    printf(", ports %u and %u, number %u, window %u", word(out), word(out + 2), word(out + 4) << 16 | word(out + 6),
           word(out + 14));
    options(out + 20, out + length);
    printf("\n");
    need("free", tcpcore_free(&side->end));
}

/* Carries what is due: the bytes and the window of each segment, and its answer where it isn't taken. */
static void carry(struct side *from, struct side *to)
{
    unsigned char out[TCPCORE_EMIT_ROOM];
    tcpcore_addr dst;
    size_t length;
    printf("%s > %s:", from->name, to->name);
    while (tcpcore_emit(&from->end, out, sizeof out, &dst, &length) == TCPCORE_DONE) {
        uint32_t answer = tcpcore_arrive(&to->end, from->config.addr, dst, out, length);
        printf(" %zu bytes, window %u", length, word(out + 14));
        printf("%s%s;", answer == TCPCORE_DONE ? "" : ", ", answer == TCPCORE_DONE ? "" : tcpcore_strerror(answer));
    }
    printf("\n");
}

static void report(const struct side *side)
{
    struct tcpcore_status reported;
    uint32_t due;
    need("status", tcpcore_status(&side->end, &reported));
    need("timers", tcpcore_timers(&side->end, &due));
    printf("%s: %s, %s, unread %llu, released %llu, ordered %llu, una %llu, next %llu, timers %u\n", side->name,
           PHASES[reported.phase], ENDINGS[reported.ending], (unsigned long long)reported.unread, (unsigned long long)reported.released,
           (unsigned long long)reported.ordered, (unsigned long long)reported.snd_una, (unsigned long long)reported.rcv_position, due);
}

/* Whom it speaks with, what it keeps for the peer, what is due, and what the SYNs agreed on. */
static void report_more(const struct side *side)
{
    struct tcpcore_status reported;
    tcpcore_addr addr;
    uint16_t port;
    uint32_t due;
    uint32_t answer = tcpcore_peer(&side->end, &addr, &port);
    need("status", tcpcore_status(&side->end, &reported));
    need("pending", tcpcore_pending(&side->end, &due));
    if (answer == TCPCORE_DONE)
        printf("%s: peer %d.%d.%d.%d port %u", side->name, addr.byte[0], addr.byte[1], addr.byte[2], addr.byte[3], port);
    else
        printf("%s: %s", side->name, tcpcore_strerror(answer));
    printf(", room %llu, queued %llu, in flight %llu, due %u", (unsigned long long)reported.room,
           (unsigned long long)reported.queued, (unsigned long long)reported.in_flight, due);
    printf(", mss %u, shifts %u and %u, scaling %u, sack %u, SND.WND %u\n", reported.mss, reported.own_shift, reported.peer_shift,
           reported.scaling, reported.sack, reported.snd_wnd);
    for (size_t i = 0; i < sizeof reported.reserved / sizeof *reported.reserved; i++)
        if (reported.reserved[i] != 0)
            printf("reserved word %zu isn't 0\n", i);
}

static void offer(struct side *side, size_t length)
{
    static const unsigned char text[5000];
    size_t taken;
    uint32_t answer = tcpcore_send(&side->end, text, length, &taken);
    printf("%s sends %zu: %s, %zu\n", side->name, length, tcpcore_strerror(answer), taken);
}

static void take(struct side *side, size_t room)
{
    unsigned char text[5000];
    size_t count;
    uint32_t answer = tcpcore_receive(&side->end, text, room, &count);
    printf("%s reads %zu: %s, %zu\n", side->name, room, tcpcore_strerror(answer), count);
}

static void shake_hands(void)
{
    make(&a);
    make(&b);
    report(&a);
    need("listen", tcpcore_listen(&b.end));
    report(&b);
    need("connect", tcpcore_connect(&a.end, b.config.addr, b.config.port));
    report(&a);
    carry(&a, &b);
    report(&b);
    carry(&b, &a);
    carry(&a, &b);
}

/* Text both ways, to the capacities, the windows and the limits. */
static void transfer(void)
{
    offer(&a, 4000);
    carry(&a, &b);
    take(&b, 500);
    report(&a);
    report(&b);
    carry(&b, &a);
    offer(&a, 1000);
    offer(&a, 1);
    carry(&a, &b);
    offer(&b, 1000);
    carry(&b, &a);
    take(&a, 250);
    carry(&a, &b);
    report(&a);
    report(&b);
    offer(&b, 200);
    offer(&b, 1);
    carry(&b, &a);
    carry(&a, &b);
}

/* One segment of `from` arrives at `to`, or is lost: its length, and whether it has to be answered at once. */
struct segment {
    unsigned char bytes[TCPCORE_EMIT_ROOM];
    size_t length;
    tcpcore_addr dst;
};

static struct segment emitted(struct side *from)
{
    struct segment segment;
    need("emit", tcpcore_emit(&from->end, segment.bytes, sizeof segment.bytes, &segment.dst, &segment.length));
    return segment;
}

static void hand(const struct side *from, struct side *to, const struct segment *segment)
{
    uint32_t at_once;
    uint32_t answer = tcpcore_arrive_with_at_once(&to->end, from->config.addr, segment->dst, segment->bytes, segment->length, &at_once);
    printf("%s takes %zu bytes: %s, %s\n", to->name, segment->length, tcpcore_strerror(answer),
           at_once ? "at once" : "may wait");
}

/* Two ends that agree on all that can be agreed on. The second of three texts comes last, and one comes again. */
static void agree(void)
{
    a.config.sack = b.config.scales = 1;
    make(&a);
    make(&b);
    report_more(&a);
    need("listen", tcpcore_listen(&b.end));
    report_more(&b);
    need("connect", tcpcore_connect(&a.end, b.config.addr, b.config.port));
    report_more(&a);
    struct segment syn = emitted(&a);
    hand(&a, &b, &syn);
    report_more(&b);
    struct segment answer = emitted(&b);
    hand(&b, &a, &answer);
    report_more(&a);
    carry(&a, &b);
    offer(&a, 3000);
    struct segment first = emitted(&a), second = emitted(&a), third = emitted(&a);
    report_more(&a);
    hand(&a, &b, &first);
    hand(&a, &b, &third);
    hand(&a, &b, &second);
    hand(&a, &b, &second);
    report_more(&b);
    carry(&b, &a);
    report_more(&a);
    take(&b, 100);
    report_more(&b);
    need("acknowledge", tcpcore_acknowledge(&b.end));
    carry(&b, &a);
    need("close", tcpcore_close(&a.end));
    struct segment fin = emitted(&a);
    hand(&a, &b, &fin);
}

/* A segment for which there is no end, and its reset. */
static void stray(void)
{
    unsigned char out[TCPCORE_RESET_ROOM], again[TCPCORE_RESET_ROOM];
    size_t written;
    make(&a);
    need("connect", tcpcore_connect(&a.end, b.config.addr, b.config.port));
    struct segment syn = emitted(&a);
    uint32_t answer = tcpcore_stray_reset(a.config.addr, syn.dst, syn.bytes, syn.length, out, sizeof out, &written);
    printf("stray SYN: %s, %zu bytes, ports %u and %u, number %u, acknowledges %u, flags %d\n", tcpcore_strerror(answer),
           written, word(out), word(out + 2), word(out + 4) << 16 | word(out + 6), word(out + 8) << 16 | word(out + 10),
           out[13]);
    answer = tcpcore_stray_reset(b.config.addr, a.config.addr, out, written, again, sizeof again, &written);
    printf("stray reset: %s, %zu bytes\n", tcpcore_strerror(answer), written);
    need("arrive", tcpcore_arrive(&a.end, b.config.addr, a.config.addr, out, sizeof out));
    report(&a);
    report_more(&a);
    need("free", tcpcore_free(&a.end));
}

static void free_both(void)
{
    need("free", tcpcore_free(&a.end));
    need("free", tcpcore_free(&b.end));
}

static void bring(struct side *from, struct side *to)
{
    struct segment segment;
    while (tcpcore_emit(&from->end, segment.bytes, sizeof segment.bytes, &segment.dst, &segment.length) == TCPCORE_DONE)
        tcpcore_arrive(&to->end, from->config.addr, segment.dst, segment.bytes, segment.length);
}

static void print_peer(const char *name, tcpcore_addr addr, unsigned int port)
{
    printf("%s %d.%d.%d.%d port %u, ", name, addr.byte[0], addr.byte[1], addr.byte[2], addr.byte[3], port);
}

static void report_time_wait(const struct tcpcore_time_wait *time_wait)
{
    uint32_t phase, ending, due;
    need("time_wait_status", tcpcore_time_wait_status(time_wait, &phase, &ending));
    need("time_wait_pending", tcpcore_time_wait_pending(time_wait, &due));
    printf("record: %s, %s, due %u: ", PHASES[phase], ENDINGS[ending], due);
    print_peer("own", time_wait->addr, time_wait->port);
    print_peer("peer", time_wait->peer_addr, time_wait->peer_port);
    printf("seq %u, next %u, window %u, shift %u, ack %u, reset %u", time_wait->snd_nxt, time_wait->rcv_nxt, time_wait->rcv_wnd, time_wait->shift,
           time_wait->ack, time_wait->reset);
    if (time_wait->reset > 0) {
        print_peer(" to", time_wait->reset_addr, time_wait->reset_port);
        printf("seq %u, ack %u", time_wait->reset_seq, time_wait->reset_ack);
    }
    printf(", ending %u\n", time_wait->ending);
}

static void emit_time_wait(struct tcpcore_time_wait *time_wait)
{
    unsigned char out[TCPCORE_TIME_WAIT_ROOM];
    tcpcore_addr to;
    size_t length;
    need("time_wait_emit", tcpcore_time_wait_emit(time_wait, out, sizeof out, &to, &length));
    printf("record emits %zu bytes: to %d.%d.%d.%d, ports %u and %u, number %u, acknowledges %u, flags %d, window %u\n", length,
           to.byte[0], to.byte[1], to.byte[2], to.byte[3], word(out), word(out + 2), word(out + 4) << 16 | word(out + 6),
           word(out + 8) << 16 | word(out + 10), out[13], word(out + 14));
}

static void arrive_at_time_wait(struct tcpcore_time_wait *time_wait, const struct segment *segment)
{
    uint32_t answer = tcpcore_time_wait_arrive(time_wait, b.config.addr, segment->dst, segment->bytes, segment->length);
    printf("record takes %zu bytes: %s\n", segment->length, tcpcore_strerror(answer));
}

/* The record in the place of A: the peer's FIN comes again, in TIME-WAIT and once that is over, and then a new SYN. */
static void rested(void)
{
    struct tcpcore_time_wait time_wait;
    static const unsigned char text[10];
    size_t taken;
    make(&a);
    make(&b);
    need("listen", tcpcore_listen(&b.end));
    need("connect", tcpcore_connect(&a.end, b.config.addr, b.config.port));
    bring(&a, &b);
    bring(&b, &a);
    need("send", tcpcore_send(&a.end, text, sizeof text, &taken));
    need("close", tcpcore_close(&a.end));
    bring(&a, &b);
    bring(&b, &a);
    printf("record of A: %s\n", tcpcore_strerror(tcpcore_time_wait(&a.end, &time_wait)));
    need("close", tcpcore_close(&b.end));
    struct segment fin = emitted(&b);
    hand(&b, &a, &fin);
    need("time_wait", tcpcore_time_wait(&a.end, &time_wait));
    free_both();
    report_time_wait(&time_wait);
    emit_time_wait(&time_wait);
    report_time_wait(&time_wait);
    arrive_at_time_wait(&time_wait, &fin);
    emit_time_wait(&time_wait);
    need("time_wait_timer", tcpcore_time_wait_timer(&time_wait, TCPCORE_TIMER_TIME_WAIT));
    arrive_at_time_wait(&time_wait, &fin);
    report_time_wait(&time_wait);
    emit_time_wait(&time_wait);
    make(&b);
    need("connect", tcpcore_connect(&b.end, a.config.addr, a.config.port));
    struct segment syn = emitted(&b);
    need("free", tcpcore_free(&b.end));
    arrive_at_time_wait(&time_wait, &syn);
    report_time_wait(&time_wait);
    emit_time_wait(&time_wait);
    printf("record aborts: %s\n", tcpcore_strerror(tcpcore_time_wait_abort(&time_wait)));
}

static void close_both(void)
{
    need("close", tcpcore_close(&a.end));
    report(&a);
    carry(&a, &b);
    report(&b);
    carry(&b, &a);
    report(&a);
    need("close", tcpcore_close(&b.end));
    report(&b);
    carry(&b, &a);
    report(&a);
    carry(&a, &b);
    report(&b);
    need("timer", tcpcore_timer(&a.end, TCPCORE_TIMER_TIME_WAIT));
    report(&a);
}

int main(void)
{
    layout();
    first_syn(&a, &b);
    first_syn(&b, &a);
    shake_hands();
    transfer();
    close_both();
    free_both();
    shake_hands();
    need("abort", tcpcore_abort(&a.end));
    report(&a);
    carry(&a, &b);
    report(&b);
    free_both();
    agree();
    free_both();
    stray();
    rested();
    return 0;
}
