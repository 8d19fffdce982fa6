/*
 * The other side is this machine's Linux kernel (see peer.h), over the TUN device `peer0`, at 10.0.0.2: its clock is the machine's. Each
 * case has a port of the kernel's own, which is 2 on the wire, so that no connection is taken for an earlier one.
 */
#define _DEFAULT_SOURCE
#include "peer.h"

#include "ip.h"
#include "segment.h"
#include "sockets.h"

#include <arpa/inet.h>
#include <fcntl.h>
#include <linux/if.h>
#include <linux/if_tun.h>
#include <poll.h>
#include <stdio.h>
#include <stdlib.h>
#include <string.h>
#include <sys/ioctl.h>
#include <time.h>
#include <unistd.h>

const char *const PEER_NAME = "Linux";
const int PEER_IS_REAL = 1;
const uint64_t PEER_PACE = 15000;

/* A packet has room for so many bytes; the first port; a socket's room where windows have to shut; and no wait is longer, in ms. */
enum { PACKET = 1700, FIRST = 10000, PORT = 2, ROOM = 8192, LONGEST = 50 };

static int device = -1, serial;
static uint64_t ahead; /* of the machine's clock */

static uint64_t real(void)
{
    struct timespec at;
    clock_gettime(CLOCK_MONOTONIC, &at);
    return (uint64_t)at.tv_sec * 1000 + (uint64_t)at.tv_nsec / 1000000;
}

static void attach(void)
{
    struct ifreq request = {.ifr_flags = IFF_TUN | IFF_NO_PI};
    strcpy(request.ifr_name, "peer0");
    device = open("/dev/net/tun", O_RDWR | O_NONBLOCK | O_CLOEXEC);
    if (device < 0 || ioctl(device, TUNSETIFF, &request) < 0) {
        perror("kernel: no TUN device peer0");
        exit(2);
    }
}

static struct sockaddr_in address(uint32_t last, int port)
{
    return (struct sockaddr_in){.sin_family = AF_INET, .sin_port = htons((uint16_t)port), .sin_addr.s_addr = htonl(0x0a000000 + last)};
}

void peer_begin(void)
{
    int is_slow = trial.users[PEER].speed > 0 || trial.users[PEER].pause > 0;
    uint8_t rest[PACKET];
    if (device < 0)
        attach();
    serial++;
    ahead = now - real();
    wire_begin();
    struct sockaddr_in own = address(1, 1);
    sockets_begin(address(2, FIRST + serial), trial.opens == PEER ? &own : NULL, is_slow ? ROOM : 0);
    /* What an earlier case has left. */
    while (trial.opens != PEER && read(device, rest, sizeof rest) > 0)
        continue;
}

/* One port in the place of another, and the checksum with it (RFC 1624, 3). */
static void renumber(uint8_t *at, uint8_t *segment, uint16_t from, uint16_t to)
{
    uint32_t sum = (uint16_t)~read16(segment + AT_CHECKSUM);
    if (read16(at) != from)
        return;
    sum += (uint32_t)(uint16_t)~from + to;
    sum = (sum >> 16) + (sum & UINT16_MAX);
    write16(at, to);
    write16(segment + AT_CHECKSUM, (uint16_t)~((sum >> 16) + sum));
}

void peer_arrive(const uint8_t *segment, size_t length)
{
    uint8_t packet[PACKET];
    size_t total = ip_write(packet, (tcpcore_addr){{10, 0, 0, 1}}, (tcpcore_addr){{10, 0, 0, 2}}, length);
    memcpy(packet + IP_HEADER, segment, length);
    renumber(packet + IP_HEADER + 2, packet + IP_HEADER, PORT, (uint16_t)(FIRST + serial));
    if (write(device, packet, total) < 0)
        perror("kernel: a packet isn't taken");
}

/* What the kernel sends of this connection. */
static void leave(void)
{
    static const struct ip_net OWN = {{{10, 0, 0, 1}}, 24};
    uint8_t bytes[PACKET], segment[PACKET];
    struct ip_packet packet;
    ssize_t length;
    while ((length = read(device, bytes, sizeof bytes)) > 0) {
        if (ip_read(OWN, bytes, (size_t)length, &packet) != IP_DONE || read16(packet.segment) != FIRST + serial)
            continue;
        memcpy(segment, packet.segment, packet.length);
        renumber(segment, segment, (uint16_t)(FIRST + serial), PORT);
        wire_put(PEER, segment, packet.length);
    }
}

void peer_turn(void)
{
    leave();
    sockets_use();
    leave();
}

uint64_t peer_next(void) { return UINT64_MAX; }

uint64_t peer_wait(uint64_t until)
{
    struct pollfd from = {.fd = device, .events = POLLIN};
    uint64_t at = real() + ahead, span = until > at ? until - at : 0;
    poll(&from, 1, span < LONGEST ? (int)span : LONGEST);
    at = real() + ahead;
    return at > now ? at : now;
}

int peer_is_over(void) { return sockets_is_over(); }
const char *peer_fault(void) { return 0; }
void peer_report(void) { sockets_report(); }
