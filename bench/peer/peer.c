/*
 * peer MODE BURSTS: two ends of lwIP over a wire in memory, moved as crates/bench_transfer moves two of ours, for counting what that costs.
 * In mode in_order a burst is two segments, in each_acknowledged the same, and in one_byte two of one byte; in late ten and in early
 * forty, of which the first arrives last. Its end acknowledges every second segment by itself, and each where it is told to; in late
 * and early all acknowledgements of a burst but the last are lost, since a third one would make it send again. In mode connection
 * BURSTS connections are opened and closed, one after another.
 */
#include "lwip/init.h"
#include "lwip/ip4.h"
#include "lwip/netif.h"
#include "lwip/priv/tcp_priv.h"
#include "lwip/tcp.h"

#include <stdio.h>
#include <string.h>

enum { A, B, SEGMENT = 1460, PIECE = 2 * SEGMENT, PACKET = 1540, FLIGHTS = 128, WARM_UP = 200 };

/* A packet on its way. */
struct flight {
    size_t length;
    unsigned char bytes[PACKET];
};

static struct netif ends[2];
static struct flight wire[2][FLIGHTS];
static unsigned first[2], next[2];
static struct tcp_pcb *sender;
static int acknowledges_each;
static unsigned char text[PIECE], read_bytes[PIECE];
static unsigned long handed;

u32_t sys_now(void) { return 0; }

struct netif *end_of(const struct ip4_addr *src)
{
    return src && ip4_addr_cmp(src, netif_ip4_addr(&ends[B])) ? &ends[B] : &ends[A];
}

/* A packet leaves an end. */
static err_t leave(struct netif *end, struct pbuf *packet, const ip4_addr_t *to)
{
    int from = end == &ends[B];
    struct flight *flight = &wire[from][next[from]++ % FLIGHTS];
    LWIP_UNUSED_ARG(to);
    flight->length = packet->tot_len;
    pbuf_copy_partial(packet, flight->bytes, packet->tot_len, 0);
    return ERR_OK;
}

static void arrive(int from, const struct flight *flight)
{
    struct netif *end = &ends[1 - from];
    struct pbuf *packet = pbuf_alloc(PBUF_RAW, (u16_t)flight->length, PBUF_POOL);
    pbuf_take(packet, flight->bytes, (u16_t)flight->length);
    end->input(packet, end);
}

static int is_empty(int from) { return first[from] == next[from]; }

static void carry(int from)
{
    if (!is_empty(from))
        arrive(from, &wire[from][first[from]++ % FLIGHTS]);
}

static void carry_all(void)
{
    while (!is_empty(A) || !is_empty(B)) {
        carry(A);
        carry(B);
    }
}

static err_t add_end(struct netif *end)
{
    end->output = leave;
    end->mtu = 1500;
    return ERR_OK;
}

/* B's user reads what came. */
static err_t read_text(void *unused, struct tcp_pcb *end, struct pbuf *packet, err_t fault)
{
    LWIP_UNUSED_ARG(unused);
    LWIP_UNUSED_ARG(fault);
    if (packet != NULL) {
        for (u16_t at = 0; at < packet->tot_len; at += PIECE)
            pbuf_copy_partial(packet, read_bytes, PIECE, at);
        handed += packet->tot_len;
        tcp_recved(end, packet->tot_len);
        pbuf_free(packet);
        if (acknowledges_each)
            tcp_ack_now(end);
    } else {
        tcp_close(end);
    }
    return ERR_OK;
}

static err_t accept_peer(void *unused, struct tcp_pcb *end, err_t fault)
{
    LWIP_UNUSED_ARG(unused);
    LWIP_UNUSED_ARG(fault);
    tcp_recv(end, read_text);
    return ERR_OK;
}

static err_t opened(void *unused, struct tcp_pcb *end, err_t fault)
{
    LWIP_UNUSED_ARG(unused);
    LWIP_UNUSED_ARG(end);
    return fault;
}

static void connect_to_listener(void)
{
    sender = tcp_new();
    tcp_bind(sender, netif_ip_addr4(&ends[A]), 1);
    tcp_nagle_disable(sender);
    tcp_connect(sender, netif_ip_addr4(&ends[B]), 2, opened);
    carry_all();
}

static void open_ends(void)
{
    for (int side = A; side <= B; side++) {
        ip4_addr_t address, mask, gateway;
        IP4_ADDR(&address, 10, 0, 0, 1 + side);
        IP4_ADDR(&mask, 255, 255, 255, 0);
        ip4_addr_set_zero(&gateway);
        netif_add(&ends[side], &address, &mask, &gateway, NULL, add_end, ip4_input);
        netif_set_link_up(&ends[side]);
        netif_set_up(&ends[side]);
    }
    struct tcp_pcb *listener = tcp_new();
    tcp_bind(listener, netif_ip_addr4(&ends[B]), 2);
    tcp_accept(tcp_listen(listener), accept_peer);
    connect_to_listener();
}

/* A connection from the handshake to the last acknowledgement; what waits for old segments is given back. */
static int connect_and_close(void)
{
    connect_to_listener();
    struct tcp_pcb *end = sender;
    tcp_close(end);
    carry_all();
    int is_closed = end->state == TIME_WAIT;
    tcp_abort(end);
    return is_closed;
}

static void write_text(unsigned segments)
{
    for (unsigned k = 0; k < segments / 2; k++)
        if (tcp_write(sender, text, PIECE, TCP_WRITE_FLAG_COPY) != ERR_OK)
            abort();
    tcp_output(sender);
}

/* Two segments of one byte, and an acknowledgement. */
static void move_bytes(void)
{
    for (int k = 0; k < 2; k++) {
        if (tcp_write(sender, text, 1, TCP_WRITE_FLAG_COPY) != ERR_OK)
            abort();
        tcp_output(sender);
        carry_all();
    }
}

/* Carries a burst, and each acknowledgement as it comes. */
static void move_in_order(unsigned segments)
{
    write_text(segments);
    carry_all();
}

/* The same with the first segment last. */
static void move_late(unsigned segments)
{
    write_text(segments);
    if (next[A] - first[A] != segments)
        abort();
    const struct flight *late = &wire[A][first[A]++ % FLIGHTS];
    while (!is_empty(A))
        carry(A);
    first[B] = next[B];
    arrive(A, late);
    carry_all();
}

int main(int count, char **words)
{
    if (count != 3)
        return 2;
    const char *mode = words[1];
    unsigned long bursts = strtoul(words[2], NULL, 10);
    unsigned segments = strcmp(mode, "late") == 0 ? 10 : strcmp(mode, "early") == 0 ? 40 : 2;
    int is_of_bytes = strcmp(mode, "one_byte") == 0;
    memset(text, 'a', sizeof text);
    lwip_init();
    open_ends();
    if (strcmp(mode, "connection") == 0) {
        unsigned long closed = 0;
        tcp_abort(sender);
        carry_all();
        for (unsigned long k = 0; k < bursts; k++)
            closed += connect_and_close();
        printf("%lu connections were opened and closed\n", closed);
        return closed == bursts ? 0 : 1;
    }
    /* The congestion window grows. */
    for (unsigned k = 0; k < WARM_UP; k++)
        move_in_order(2);
    handed = 0;
    acknowledges_each = strcmp(mode, "each_acknowledged") == 0;
    for (unsigned long k = 0; k < bursts; k++)
        is_of_bytes ? move_bytes() : segments == 2 ? move_in_order(2) : move_late(segments);
    printf("%lu bytes were moved\n", handed);
    return handed == bursts * segments * (is_of_bytes ? 1 : SEGMENT) ? 0 : 1;
}
