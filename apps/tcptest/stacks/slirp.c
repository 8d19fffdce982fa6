/*
 * libslirp's TCP, of 4.4BSD (see child.h): the tester is its guest at 10.9.0.2, and the stack's users have sockets of this machine behind
 * slirp's 10.9.0.1 (sockets.c). slirp's clock is the tester's; what the sockets carry over loopback is there at once.
 */
#define _DEFAULT_SOURCE
#include "child.h"
#include "sockets.h"

#include <arpa/inet.h>
#include <poll.h>
#include <slirp/libslirp.h>
#include <string.h>

/* An Ethernet header, the types behind it, and how often all is looked at in a turn. */
enum { ETHERNET = 14, TYPE_IP = 0x0800, TYPE_ARP = 0x0806, ARP = 28, FRAME = 2048, LOOKS = 4, FORWARDED = 10000, POLLED = 128 };

const unsigned stack_step = 100;

static const uint8_t GUEST[6] = {2, 0, 0, 0, 0, 1};
static Slirp *slirp;
static int forwarded;
static struct pollfd polled[POLLED];
static int polled_count;

static void nothing(void *opaque) { (void)opaque; }
static void no_fd(int fd, void *opaque) { (void)fd, (void)opaque; }
static void said(const char *text, void *opaque) { (void)text, (void)opaque; }
static int64_t clock_of(void *opaque) { (void)opaque; return (int64_t)now * 1000000; }
static void *no_timer(SlirpTimerCb call, void *with, void *opaque) { (void)call, (void)with, (void)opaque; return &slirp; }
static void no_timer_end(void *timer, void *opaque) { (void)timer, (void)opaque; }
static void no_timer_at(void *timer, int64_t at, void *opaque) { (void)timer, (void)at, (void)opaque; }

static void write_type(uint8_t *frame, unsigned type) { frame[12] = (uint8_t)(type >> 8), frame[13] = (uint8_t)type; }

/* A frame leaves slirp. */
static ssize_t leave(const void *frame, size_t length, void *opaque)
{
    const uint8_t *bytes = frame;
    (void)opaque;
    if (length > ETHERNET + 20 && bytes[12] == 8 && bytes[13] == 0)
        child_leave(bytes + ETHERNET, (size_t)(bytes[ETHERNET + 2] << 8 | bytes[ETHERNET + 3]));
    return (ssize_t)length;
}

static const SlirpCb CALLS = {.send_packet = leave, .guest_error = said, .clock_get_ns = clock_of, .timer_new = no_timer,
                              .timer_free = no_timer_end, .timer_mod = no_timer_at, .register_poll_fd = no_fd,
                              .unregister_poll_fd = no_fd, .notify = nothing};

/* Says to slirp where the guest is: it asks by ARP for 10.9.0.1 (RFC 826). */
static void introduce(void)
{
    uint8_t frame[ETHERNET + ARP + 18] = {255, 255, 255, 255, 255, 255};
    static const uint8_t ASKS[8] = {0, 1, 8, 0, 6, 4, 0, 1};
    memcpy(frame + 6, GUEST, 6);
    write_type(frame, TYPE_ARP);
    memcpy(frame + ETHERNET, ASKS, 8);
    memcpy(frame + ETHERNET + 8, GUEST, 6);
    memcpy(frame + ETHERNET + 14, (uint8_t[]){10, 9, 0, 2}, 4);
    memcpy(frame + ETHERNET + 24, (uint8_t[]){10, 9, 0, 1}, 4);
    slirp_input(slirp, frame, sizeof frame);
}

void stack_begin(void)
{
    SlirpConfig config = {.version = 3, .in_enabled = true, .if_mtu = 1500, .if_mru = 1500, .disable_dns = true};
    config.vnetwork.s_addr = htonl(0x0a090000);
    config.vnetmask.s_addr = htonl(0xffffff00);
    config.vhost.s_addr = htonl(0x0a090001);
    config.vdhcp_start.s_addr = htonl(0x0a09000f);
    config.vnameserver.s_addr = htonl(0x0a090003);
    slirp = slirp_new(&config, &CALLS, NULL);
    introduce();
}

void stack_arrive(const uint8_t *packet, size_t length)
{
    uint8_t frame[FRAME] = {0x52, 0x55, 10, 9, 0, 1};
    memcpy(frame + 6, GUEST, 6);
    write_type(frame, TYPE_IP);
    memcpy(frame + ETHERNET, packet, length);
    slirp_input(slirp, frame, (int)(ETHERNET + length));
}

static int add(int fd, int events, void *opaque)
{
    (void)opaque;
    short asks = (short)((events & SLIRP_POLL_IN ? POLLIN : 0) | (events & SLIRP_POLL_OUT ? POLLOUT : 0) | (events & SLIRP_POLL_PRI ? POLLPRI : 0));
    polled[polled_count] = (struct pollfd){.fd = fd, .events = asks};
    return polled_count++;
}

static int found(int at, void *opaque)
{
    short events = polled[at].revents;
    (void)opaque;
    return (events & POLLIN ? SLIRP_POLL_IN : 0) | (events & POLLOUT ? SLIRP_POLL_OUT : 0) | (events & POLLPRI ? SLIRP_POLL_PRI : 0) |
           (events & POLLERR ? SLIRP_POLL_ERR : 0) | (events & POLLHUP ? SLIRP_POLL_HUP : 0);
}

void stack_turn(void)
{
    for (int at = 0; at < LOOKS; at++) {
        uint32_t timeout = UINT32_MAX;
        polled_count = 0;
        slirp_pollfds_fill(slirp, &timeout, add, NULL);
        poll(polled, (nfds_t)polled_count, 0);
        slirp_pollfds_poll(slirp, 0, found, NULL);
    }
}

/* A user connects to a port of this machine that slirp forwards. */
int stack_connect(uint16_t port, const uint8_t address[4], uint16_t to, const struct wishes *wishes)
{
    struct in_addr guest, here = {htonl(INADDR_LOOPBACK)};
    int at = FORWARDED + ++forwarded;
    memcpy(&guest, address, 4);
    if (guest.s_addr != htonl(0x0a090002))
        return STACK_UNKNOWN;
    if (slirp_add_hostfwd(slirp, 0, here, at, guest, to) < 0)
        return -1;
    return sockets_connect(port, (uint16_t)at, wishes);
}
