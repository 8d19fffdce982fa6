/*
 * The other side is libslirp's TCP, of 4.4BSD (see peer.h): our end is the guest at 10.0.0.1, and the peer's user has a socket of this
 * machine behind slirp's 10.0.0.2. slirp's clock is the driver's; what the sockets carry over loopback is there at once.
 */
#include "peer.h"

#include "ip.h"
#include "segment.h"
#include "sockets.h"

#include <arpa/inet.h>
#include <poll.h>
#include <slirp/libslirp.h>
#include <stdio.h>
#include <stdlib.h>
#include <string.h>

const char *const PEER_NAME = "slirp";
const uint64_t PEER_PACE = 5000;
const int PEER_IS_REAL = 0;

/* An Ethernet header and the types behind it; the user's port, the first that slirp forwards, and what the socket has room for, little
   enough for windows to shut; and how often all is looked at, in a turn and in milliseconds. */
enum { ETHERNET = 14, TYPE_IP = 0x0800, TYPE_ARP = 0x0806, ARP = 28, FRAME = 1700 };
enum { PORT = 2, FORWARDED = 20000, ROOM = 8192, LOOKS = 4, TICK = 10 };

static const uint8_t GUEST[6] = {2, 0, 0, 0, 0, 1};
static Slirp *slirp;
static int forwarded, syns;
static struct pollfd polled[64];
static int polled_count;

static void nothing(void *opaque) { (void)opaque; }
static void no_fd(int fd, void *opaque) { (void)fd, (void)opaque; }
static void said(const char *text, void *opaque) { (void)text, (void)opaque; }
static int64_t clock_of(void *opaque) { (void)opaque; return (int64_t)now * 1000000; }
static void *no_timer(SlirpTimerCb call, void *with, void *opaque) { (void)call, (void)with, (void)opaque; return &slirp; }
static void no_timer_end(void *timer, void *opaque) { (void)timer, (void)opaque; }
static void no_timer_at(void *timer, int64_t at, void *opaque) { (void)timer, (void)at, (void)opaque; }

/* A frame leaves slirp. */
static ssize_t leave(const void *frame, size_t length, void *opaque)
{
    const uint8_t *bytes = frame;
    (void)opaque;
    if (length > ETHERNET + IP_HEADER && read16(bytes + 12) == TYPE_IP)
        wire_put(PEER, bytes + ETHERNET + IP_HEADER, (size_t)read16(bytes + ETHERNET + 2) - IP_HEADER);
    return (ssize_t)length;
}

static const SlirpCb CALLS = {.send_packet = leave, .guest_error = said, .clock_get_ns = clock_of, .timer_new = no_timer,
                              .timer_free = no_timer_end, .timer_mod = no_timer_at, .register_poll_fd = no_fd,
                              .unregister_poll_fd = no_fd, .notify = nothing};

static struct sockaddr_in at_loopback(int port)
{
    return (struct sockaddr_in){.sin_family = AF_INET, .sin_port = htons((uint16_t)port), .sin_addr.s_addr = htonl(INADDR_LOOPBACK)};
}

/* Says to slirp where the guest is: it asks by ARP for 10.0.0.2 (RFC 826). */
static void introduce(void)
{
    uint8_t frame[ETHERNET + ARP + 18] = {255, 255, 255, 255, 255, 255};
    static const uint8_t ASKS[8] = {0, 1, 8, 0, 6, 4, 0, 1};
    memcpy(frame + 6, GUEST, 6);
    write16(frame + 12, TYPE_ARP);
    memcpy(frame + ETHERNET, ASKS, 8);
    memcpy(frame + ETHERNET + 8, GUEST, 6);
    memcpy(frame + ETHERNET + 14, (uint8_t[]){10, 0, 0, 1}, 4);
    memcpy(frame + ETHERNET + 24, (uint8_t[]){10, 0, 0, 2}, 4);
    slirp_input(slirp, frame, sizeof frame);
}

void peer_begin(void)
{
    SlirpConfig config = {.version = 3, .in_enabled = true, .if_mtu = 1500, .if_mru = 1500, .disable_dns = true};
    config.vnetwork.s_addr = htonl(0x0a000000);
    config.vnetmask.s_addr = htonl(0xffffff00);
    config.vhost.s_addr = htonl(0x0a000002);
    config.vdhcp_start.s_addr = htonl(0x0a00000f);
    config.vnameserver.s_addr = htonl(0x0a000003);
    if (slirp)
        slirp_cleanup(slirp);
    syns = 0;
    slirp = slirp_new(&config, &CALLS, NULL);
    introduce();
    wire_begin();
    if (trial.opens == PEER) {
        struct sockaddr_in guest = at_loopback(FORWARDED + ++forwarded);
        if (slirp_add_hostfwd(slirp, 0, guest.sin_addr, FORWARDED + forwarded, (struct in_addr){htonl(0x0a000001)}, 1) < 0) {
            printf("slirp: no forwarding\n");
            exit(2);
        }
        sockets_begin(at_loopback(PORT), &guest, ROOM);
    } else {
        sockets_begin(at_loopback(PORT), NULL, ROOM);
    }
}

void peer_arrive(const uint8_t *segment, size_t length)
{
    uint8_t frame[FRAME] = {0x52, 0x55, 10, 0, 0, 2};
    memcpy(frame + 6, GUEST, 6);
    write16(frame + 12, TYPE_IP);
    size_t total = ip_write(frame + ETHERNET, (tcpcore_addr){{10, 0, 0, 1}}, (tcpcore_addr){{10, 0, 0, 2}}, length);
    memcpy(frame + ETHERNET + IP_HEADER, segment, length);
    syns += bits_of(segment, SYN) != 0;
    slirp_input(slirp, frame, (int)(ETHERNET + total));
}

static int add(int fd, int events, void *opaque)
{
    (void)opaque;
    short asks = (short)((events & SLIRP_POLL_IN ? POLLIN : 0) | (events & SLIRP_POLL_OUT ? POLLOUT : 0) | (events & SLIRP_POLL_PRI ? POLLPRI : 0));
    polled[polled_count] = (struct pollfd){.fd = fd, .events = asks};
    return polled_count++;
}

static int found(int at, void *opaque)
{
    short events = polled[at].revents;
    (void)opaque;
    return (events & POLLIN ? SLIRP_POLL_IN : 0) | (events & POLLOUT ? SLIRP_POLL_OUT : 0) | (events & POLLPRI ? SLIRP_POLL_PRI : 0) |
           (events & POLLERR ? SLIRP_POLL_ERR : 0) | (events & POLLHUP ? SLIRP_POLL_HUP : 0);
}

static void look(void)
{
    uint32_t timeout = UINT32_MAX;
    polled_count = 0;
    slirp_pollfds_fill(slirp, &timeout, add, NULL);
    poll(polled, (nfds_t)polled_count, 0);
    slirp_pollfds_poll(slirp, 0, found, NULL);
}

void peer_turn(void)
{
    for (int at = 0; at < LOOKS; at++) {
        look();
        sockets_use();
    }
}

uint64_t peer_next(void) { return now + TICK; }
uint64_t peer_wait(uint64_t until) { return until; }
int peer_is_over(void) { return sockets_is_over(); }

/* Each SYN with an MSS makes both buffers anew, empty: what was to be sent is lost (tcp_dooptions, tcp_mss, sbreserve). */
const char *peer_fault(void)
{
    return syns > 1 ? "a SYN that comes again empties its send buffer (tcp_input.c, line 1542)" : 0;
}

void peer_report(void)
{
    char *all = slirp_connection_info(slirp);
    sockets_report();
    printf("    %d SYNs\n%s", syns, all);
    free(all);
}
