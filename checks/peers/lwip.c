/* The other side is lwIP (see peer.h), in one of four builds (see lwipopts.h). */
#include "peer.h"

#include "ip.h"
#include "segment.h"

#include "lwip/init.h"
#include "lwip/ip4.h"
#include "lwip/netif.h"
#include "lwip/priv/tcp_priv.h"
#include "lwip/tcp.h"

#include <stdio.h>
#include <string.h>

const char *const PEER_NAME =
    BUILD == SHIPPED ? "lwIP as it ships" : BUILD == BLOCKS ? "lwIP with blocks" : BUILD == TINY ? "lwIP, tiny" : "lwIP, nothing out of order";

/* With four segments in flight most losses are found by silence, and a lost window update by a probe after a second. */
const uint64_t PEER_PACE = BUILD == TINY ? 25000 : BUILD == BARE ? 5000 : 4000;
const int PEER_IS_REAL = 0;

/* Its timers have ticks of so many milliseconds; a packet has room for so many bytes, and a write has so many segments. */
enum { TICK = TCP_TMR_INTERVAL, PACKET = 1700, PIECES = 2 };

static struct netif device;
static struct tcp_pcb *end;
static struct pbuf *held; /* what the user hasn't read */
static uint64_t ticked;
static int is_begun, is_gone, has_ended, is_early, has_given_up;
static uint32_t isn;

u32_t sys_now(void) { return (u32_t)now; }

/* Looks for a FIN before the end of what its user sent. */
static void watch(const uint8_t *segment, size_t length)
{
    if (bits_of(segment, SYN))
        isn = read32(segment + AT_SEQ);
    if (bits_of(segment, FIN))
        is_early |= read32(segment + AT_SEQ) + (uint32_t)(length - header_of(segment)) - isn - 1 != (uint32_t)trial.users[PEER].sent;
}

static err_t leave(struct netif *netif, struct pbuf *packet, const ip4_addr_t *to)
{
    uint8_t bytes[PACKET];
    LWIP_UNUSED_ARG(netif);
    LWIP_UNUSED_ARG(to);
    pbuf_copy_partial(packet, bytes, packet->tot_len, 0);
    watch(bytes + IP_HEADER, packet->tot_len - IP_HEADER);
    wire_put(PEER, bytes + IP_HEADER, packet->tot_len - IP_HEADER);
    return ERR_OK;
}

static err_t add(struct netif *netif)
{
    netif->output = leave;
    netif->mtu = 1500;
    return ERR_OK;
}

static void begin_once(void)
{
    ip4_addr_t address, mask, gateway;
    is_begun = 1;
    lwip_init();
    IP4_ADDR(&address, 10, 0, 0, 2);
    IP4_ADDR(&mask, 255, 255, 255, 0);
    ip4_addr_set_zero(&gateway);
    netif_add(&device, &address, &mask, &gateway, NULL, add, ip4_input);
    netif_set_default(&device);
    netif_set_link_up(&device);
    netif_set_up(&device);
}

static void gone(void *unused, err_t fault)
{
    LWIP_UNUSED_ARG(unused);
    is_gone = 1;
    end = NULL;
    /* ERR_CLSD is told where both have closed, and its user only half (tcp_in.c, tcp_input, TF_CLOSED). */
    trial.users[PEER].saw_fault |= fault != ERR_CLSD;
    has_given_up = fault == ERR_ABRT && has_ended && trial.users[PEER].has_closed;
}

static err_t came(void *unused, struct tcp_pcb *pcb, struct pbuf *text, err_t fault)
{
    LWIP_UNUSED_ARG(unused);
    LWIP_UNUSED_ARG(pcb);
    LWIP_UNUSED_ARG(fault);
    if (!text)
        has_ended = 1;
    else if (held)
        pbuf_cat(held, text);
    else
        held = text;
    return ERR_OK;
}

static err_t opened(void *unused, struct tcp_pcb *pcb, err_t fault)
{
    LWIP_UNUSED_ARG(unused);
    end = pcb;
    tcp_recv(pcb, came);
    tcp_err(pcb, gone);
    return fault;
}

void peer_begin(void)
{
    ip4_addr_t other;
    if (!is_begun)
        begin_once();
    while (tcp_active_pcbs) {
        tcp_err(tcp_active_pcbs, NULL);
        tcp_abort(tcp_active_pcbs);
    }
    while (tcp_tw_pcbs)
        tcp_abort(tcp_tw_pcbs);
    while (tcp_listen_pcbs.pcbs)
        tcp_close(tcp_listen_pcbs.pcbs);
    if (held)
        pbuf_free(held);
    held = NULL;
    end = NULL;
    is_gone = has_ended = is_early = has_given_up = 0;
    ticked = now;
    wire_begin();
    struct tcp_pcb *pcb = tcp_new();
    tcp_bind(pcb, netif_ip_addr4(&device), 2);
    if (trial.opens == PEER) {
        IP4_ADDR(&other, 10, 0, 0, 1);
        tcp_recv(pcb, came);
        tcp_err(pcb, gone);
        tcp_connect(pcb, &other, 1, opened);
    } else {
        tcp_accept(tcp_listen(pcb), opened);
    }
}

void peer_arrive(const uint8_t *segment, size_t length)
{
    uint8_t bytes[PACKET];
    size_t total = ip_write(bytes, (tcpcore_addr){{10, 0, 0, 1}}, (tcpcore_addr){{10, 0, 0, 2}}, length);
    memcpy(bytes + IP_HEADER, segment, length);
    struct pbuf *packet = pbuf_alloc(PBUF_RAW, (u16_t)total, PBUF_RAM);
    pbuf_take(packet, bytes, (u16_t)total);
    device.input(packet, &device);
}

static void read_held(void)
{
    static uint8_t text[1 << 17];
    size_t wants = held ? user_wants(PEER, held->tot_len) : 0;
    if (wants == 0)
        return;
    pbuf_copy_partial(held, text, (u16_t)wants, 0);
    user_reads(PEER, text, wants);
    held = pbuf_free_header(held, (u16_t)wants);
    if (end)
        tcp_recved(end, (u16_t)wants);
}

/* In pieces that its queue of segments has room for. */
static void write_text(void)
{
    uint8_t text[PIECES * TCP_MSS];
    size_t length;
    do {
        size_t room = tcp_sndbuf(end), most = (size_t)PIECES * tcp_mss(end);
        length = user_text(PEER, text, room < most ? room : most);
        if (length > 0 && tcp_write(end, text, (u16_t)length, TCP_WRITE_FLAG_COPY) != ERR_OK)
            length = 0;
        trial.users[PEER].sent += length;
    } while (length > 0);
    tcp_output(end);
}

void peer_turn(void)
{
    for (; now - ticked >= TICK; ticked += TICK)
        tcp_tmr();
    read_held();
    trial.users[PEER].saw_end = has_ended && !held;
    if (!end)
        return;
    write_text();
    if (user_aborts(PEER)) {
        tcp_err(end, NULL);
        tcp_abort(end);
        is_gone = 1;
        end = NULL;
    } else if (user_closes(PEER)) {
        /* Half: what tcp_close has still to send it gives up after two minutes, however well that goes (tcp.c, tcp_slowtmr,
           LAST_ACK: the time isn't set anew once TF_RXCLOSED is set). */
        tcp_shutdown(end, 0, 1);
    } else if (end->state == TIME_WAIT) {
        is_gone = 1;
        end = NULL;
    }
}

uint64_t peer_next(void) { return ticked + TICK; }

uint64_t peer_wait(uint64_t until) { return until; }

int peer_is_over(void) { return is_gone && !held; }

/* tcp_split_unsent_seg sets the flags of the first part anew by TCPH_SET_FLAG, which clears none: the FIN stays on it. And
   tcp_slowtmr removes an end in LAST-ACK which has heard nothing for two minutes, whatever it has still to send, without a reset. */
const char *peer_fault(void)
{
    if (is_early)
        return "a FIN with the first part of a split segment (tcp_out.c, line 935)";
    return has_given_up ? "gave up in LAST-ACK, without a word, what it had to send (tcp.c, line 1373)" : 0;
}

void peer_report(void)
{
    printf("    lwIP: %s, %d of text held", is_gone ? "gone" : end ? tcp_debug_state_str(end->state) : "never there", held ? held->tot_len : 0);
    if (end)
        printf(", rtime %d, rto %d, nrtx %u, unacked %d, unsent %d, persist %u, snd_wnd %u, cwnd %u", end->rtime, end->rto, end->nrtx,
               end->unacked != NULL, end->unsent != NULL, end->persist_backoff, end->snd_wnd, end->cwnd);
    printf("\n");
}
