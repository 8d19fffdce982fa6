/*
 * icmp6.h: ICMPv6 messages behind an IPv6 header: echoes, errors, and what neighbours say of their addresses and routers (RFC 4443; RFC 4861).
 *
 * This is C beside ip6.h and icmp.h, tested and not proved.
 */
#ifndef TCPCORE_ICMP6_H
#define TCPCORE_ICMP6_H

#include "ethernet.h"
#include "icmp.h"
#include "ip6.h"

/* Types of messages, and codes of ICMP6_UNREACHABLE (RFC 4443, 3.1). */
enum { ICMP6_UNREACHABLE = 1, ICMP6_TOO_BIG = 2, ICMP6_EXPIRED = 3, ICMP6_BAD_HEADER = 4, ICMP6_ECHO = 128, ICMP6_REPLY = 129,
       ICMP6_ASKS_ROUTER = 133, ICMP6_ROUTER = 134, ICMP6_ASKS_NEIGHBOUR = 135, ICMP6_NEIGHBOUR = 136 };
enum { ICMP6_NO_NET = 0, ICMP6_PROHIBITED = 1, ICMP6_NO_HOST = 3, ICMP6_NO_PORT = 4 };

/* The longest messages of icmp6_unreachable, icmp6_neighbour and icmp6_router. */
enum { ICMP6_ROOM = ICMP_HEADER + IP6_HEADER + 8, ICMP6_NEIGHBOUR_ROOM = 32, ICMP6_ROUTER_ROOM = 88 };

/* Whether a packet of ip6_read whose protocol is IP6_ICMP has a whole message, with the right checksum. */
int icmp6_is_whole(const struct ip6_packet *packet);

/* Writes the checksum of a message of at least 8 bytes. */
void icmp6_finish(uint8_t *message, size_t length, struct ip6_addr src, struct ip6_addr dst);

/*
 * As icmp_read_error, of a packet of ip6_read whose protocol is IP6_ICMP, in the terms of ICMP for IPv4: types and codes are those that mean
 * the same, and `length` and `mtu` are IP6_MORE bytes less, as over IPv4. A message that says a link takes less than IP6_LEAST_MTU is none (RFC
 * 8201, 4). The addresses of the packet that met it go into *src and *dst, and none into the error.
 */
int icmp6_read_error(const struct ip6_packet *packet, struct icmp_error *found, struct ip6_addr *src, struct ip6_addr *dst);

/* Writes to `out`, of ICMP6_ROOM bytes, that a packet from `src` to `dst` couldn't be delivered, with this protocol and these 8 bytes behind its
   header. The checksum is left to icmp6_finish. Answers the message's length. */
size_t icmp6_unreachable(uint8_t *out, uint8_t code, struct ip6_addr src, struct ip6_addr dst, uint8_t protocol, const uint8_t *front);

/* Where a message asks neighbours for `addr`, or whether anybody has it, writes the answer that it is at `own` to the 32 bytes at `out`, without its
   checksum, and answers their count; else 0 (RFC 4861, 7.1.1 and 7.2.4). */
size_t icmp6_neighbour(uint8_t *out, const struct ip6_packet *asks, struct ethernet_addr own, struct ip6_addr addr);

/* Writes to `out`, of ICMP6_ROUTER_ROOM bytes and without its checksum, that here is a router, for hosts that make their addresses of the
   first 64 bits of `net`, with this MTU and name server (RFC 4861, 4.2; RFC 8106, 5.1). Answers the message's length. */
size_t icmp6_router(uint8_t *out, struct ethernet_addr own, struct ip6_addr net, uint32_t mtu, struct ip6_addr resolver);

#endif
