/* lwIP 2.1.3 (see child.h). */
#include "child.h"

#include "lwip/init.h"
#include "lwip/ip4.h"
#include "lwip/netif.h"
#include "lwip/priv/tcp_priv.h"
#include "lwip/tcp.h"

#include <stdlib.h>
#include <string.h>

enum { PACKET = 2048 };

const unsigned stack_step = 100;

struct handle {
    struct tcp_pcb *pcb;
    struct pbuf *held;
    uint16_t port;
    int is_used, is_given, has_ended;
    long fault;
};

static struct netif device;
static struct handle handles[HANDLES];
static struct wishes wished[LISTENERS];
static int listeners;
static uint64_t ticked;

u32_t sys_now(void) { return (u32_t)now; }

/* bench/peer has lwIP's clock and random numbers for a driver's. */
static err_t leave(struct netif *netif, struct pbuf *packet, const ip4_addr_t *to)
{
    uint8_t bytes[PACKET];
    LWIP_UNUSED_ARG(netif);
    LWIP_UNUSED_ARG(to);
    child_leave(bytes, pbuf_copy_partial(packet, bytes, packet->tot_len, 0));
    return ERR_OK;
}

static err_t add(struct netif *netif)
{
    netif->output = leave;
    netif->mtu = 1500;
    netif->flags |= NETIF_FLAG_BROADCAST;
    return ERR_OK;
}

void stack_begin(void)
{
    ip4_addr_t address, mask, gateway;
    srand((unsigned)now);
    lwip_init();
    IP4_ADDR(&address, 10, 9, 0, 1);
    IP4_ADDR(&mask, 255, 255, 255, 0);
    ip4_addr_set_zero(&gateway);
    netif_add(&device, &address, &mask, &gateway, NULL, add, ip4_input);
    netif_set_default(&device);
    netif_set_link_up(&device);
    netif_set_up(&device);
    ticked = now;
}

void stack_arrive(const uint8_t *bytes, size_t length)
{
    struct pbuf *packet = pbuf_alloc(PBUF_RAW, (u16_t)length, PBUF_RAM);
    pbuf_take(packet, bytes, (u16_t)length);
    device.input(packet, &device);
}

void stack_turn(void)
{
    for (; now - ticked >= TCP_TMR_INTERVAL; ticked += TCP_TMR_INTERVAL)
        tcp_tmr();
}

static void gone(void *argument, err_t fault)
{
    struct handle *handle = argument;
    handle->pcb = NULL;
    /* ERR_CLSD is told where both have closed. */
    handle->fault = fault == ERR_CLSD ? 0 : fault == ERR_ABRT ? STACK_TIMED_OUT : STACK_RESET;
    handle->has_ended |= fault == ERR_CLSD;
}

static err_t came(void *argument, struct tcp_pcb *pcb, struct pbuf *text, err_t fault)
{
    struct handle *handle = argument;
    LWIP_UNUSED_ARG(pcb);
    LWIP_UNUSED_ARG(fault);
    if (!text)
        handle->has_ended = 1;
    else if (handle->held)
        pbuf_cat(handle->held, text);
    else
        handle->held = text;
    return ERR_OK;
}

static void wish(struct tcp_pcb *pcb, const struct wishes *wishes)
{
    if (wishes->nagle > 0)
        tcp_nagle_enable(pcb);
    else
        tcp_nagle_disable(pcb);
    pcb->ttl = wishes->ttl >= 0 ? (u8_t)wishes->ttl : pcb->ttl;
    pcb->tos = wishes->service >= 0 ? (u8_t)wishes->service : pcb->tos;
    if (!wishes->keeps)
        return;
    ip_set_option(pcb, SOF_KEEPALIVE);
    pcb->keep_idle = wishes->idle > 0 ? wishes->idle : pcb->keep_idle;
    pcb->keep_intvl = wishes->interval > 0 ? wishes->interval : pcb->keep_intvl;
}

static struct handle *handle_of(struct tcp_pcb *pcb, uint16_t port)
{
    for (int at = 0; at < HANDLES; at++)
        if (!handles[at].is_used) {
            handles[at] = (struct handle){.pcb = pcb, .port = port, .is_used = 1};
            tcp_arg(pcb, &handles[at]);
            tcp_recv(pcb, came);
            tcp_err(pcb, gone);
            return &handles[at];
        }
    return NULL;
}

static err_t opened(void *argument, struct tcp_pcb *pcb, err_t fault)
{
    if (fault != ERR_OK || !handle_of(pcb, pcb->local_port))
        return ERR_VAL;
    wish(pcb, argument);
    return ERR_OK;
}

int stack_listen(uint16_t port, const struct wishes *wishes)
{
    struct tcp_pcb *pcb = tcp_new();
    if (wishes->capacity > 0 || listeners == LISTENERS || tcp_bind(pcb, netif_ip_addr4(&device), port) != ERR_OK)
        return 0;
    wished[listeners] = *wishes;
    pcb = tcp_listen(pcb);
    tcp_arg(pcb, &wished[listeners++]);
    tcp_accept(pcb, opened);
    return 1;
}

static err_t connected(void *argument, struct tcp_pcb *pcb, err_t fault)
{
    LWIP_UNUSED_ARG(argument);
    LWIP_UNUSED_ARG(pcb);
    return fault;
}

int stack_connect(uint16_t port, const uint8_t address[4], uint16_t to, const struct wishes *wishes)
{
    ip_addr_t peer;
    struct tcp_pcb *pcb = tcp_new();
    struct handle *handle = handle_of(pcb, port);
    IP4_ADDR(&peer, address[0], address[1], address[2], address[3]);
    handle->is_given = 1;
    wish(pcb, wishes);
    tcp_bind(pcb, netif_ip_addr4(&device), port);
    return tcp_connect(pcb, &peer, to, connected) == ERR_OK ? (int)(handle - handles) : -1;
}

int stack_accept(uint16_t port)
{
    for (int at = 0; at < HANDLES; at++)
        if (handles[at].is_used && !handles[at].is_given && handles[at].port == port) {
            handles[at].is_given = 1;
            return at;
        }
    return -1;
}

long stack_send(int number, const void *text, size_t length)
{
    struct tcp_pcb *pcb = handles[number].pcb;
    if (!pcb)
        return STACK_RESET;
    size_t room = tcp_sndbuf(pcb), count = length < room ? length : room;
    if (count > 0 && tcp_write(pcb, text, (u16_t)count, TCP_WRITE_FLAG_COPY) != ERR_OK)
        return STACK_NOTHING;
    tcp_output(pcb);
    return (long)count;
}

long stack_receive(int number, void *out, size_t room)
{
    struct handle *handle = &handles[number];
    if (!handle->held)
        return handle->fault ? handle->fault : handle->has_ended ? STACK_ENDED : STACK_NOTHING;
    u16_t count = pbuf_copy_partial(handle->held, out, (u16_t)(room < 65535 ? room : 65535), 0);
    handle->held = pbuf_free_header(handle->held, count);
    if (handle->pcb)
        tcp_recved(handle->pcb, count);
    return count;
}

int stack_is_open(int number) { return handles[number].pcb && handles[number].pcb->state == ESTABLISHED; }

void stack_close(int number)
{
    if (handles[number].pcb)
        tcp_shutdown(handles[number].pcb, 0, 1);
}

void stack_leave(int number)
{
    struct handle *handle = &handles[number];
    if (!handle->pcb)
        return;
    tcp_arg(handle->pcb, NULL);
    tcp_recv(handle->pcb, NULL);
    tcp_err(handle->pcb, NULL);
    tcp_close(handle->pcb);
    handle->pcb = NULL;
}

void stack_abort(int number)
{
    struct tcp_pcb *pcb = handles[number].pcb;
    if (pcb) {
        tcp_err(pcb, NULL);
        tcp_abort(pcb);
    }
    handles[number].pcb = NULL;
    handles[number].fault = STACK_RESET;
}

int stack_wish(int number, const struct wishes *wishes)
{
    if (!handles[number].pcb || wishes->capacity > 0)
        return 0;
    wish(handles[number].pcb, wishes);
    return 1;
}
