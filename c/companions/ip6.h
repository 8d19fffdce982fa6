/*
 * ip6.h: TCP over IPv6 for ends whose addresses have four bytes: the IPv6 header, written, read and checked (RFC 8200), and addresses
 * in the place of IPv6's.
 *
 * This is C over tcpcore.h and ip.h, tested and not proved. An end only compares addresses and sums them. So it is given a surrogate for each
 * IPv6 address, ip6_surrogate; what arrives is summed here, over its own pseudo-header, and then taken as one that a device has found right
 * (tcpcore_arrive_vouched_with_report); and of what the end emits the checksum is changed to that of the IPv6 pseudo-header, ip6_resum.
 * All that is proved of an end holds of what is between. Its MSS is 20 bytes less than over IPv4, for the longer header.
 *
 * Whoever keeps connections looks surrogates up, and compares the addresses that they stand for: two of some 2^28 addresses may have one
 * surrogate, which are then not to be had at once.
 */
#ifndef TCPCORE_IP6_H
#define TCPCORE_IP6_H

#include "ip.h"

/* The bytes of a header without extensions; by how many it is longer than IPv4's; the least MTU of a link (RFC 8200, 5). */
enum { IP6_HEADER = 40, IP6_MORE = IP6_HEADER - IP_HEADER, IP6_LEAST_MTU = 1280 };

/* The protocol of ICMPv6 (RFC 4443, 2.1), and how many routers a packet may pass, unless it is for neighbours (RFC 4861, 6.1). */
enum { IP6_ICMP = 58, IP6_HOPS = 64, IP6_ALL_HOPS = 255 };

/* What ip6_read answers: the first fault that applies. */
enum {
    IP6_DONE = 0,
    IP6_SHORT = 1,       /* fewer than 40 bytes */
    IP6_BAD_VERSION = 2, /* not version 6 */
    IP6_BAD_LENGTH = 3,  /* more bytes than there are, or an extension header that is cut off */
    IP6_BAD_SOURCE = 4,  /* from an address that no peer has (RFC 4291, 2.5.2, 2.5.3 and 2.7) */
    IP6_FRAGMENT = 5     /* a piece of a packet (RFC 8200, 4.5) */
};

struct ip6_addr {
    uint8_t byte[16];
};

/* What ip6_read found. */
struct ip6_packet {
    struct ip6_addr src, dst;
    uint8_t protocol, hops;
    const uint8_t *segment; /* what lies behind the headers, within the bytes that were read */
    size_t length;
};

/* Reads the packet at the front of `length` bytes, to whoever it is. *packet is set where the answer is IP6_DONE alone. Options for
   hosts and routers are passed over, and so is a routing header that has no way left (RFC 8200, 4). */
int ip6_read(const void *bytes, size_t length, struct ip6_packet *packet);

/* Writes the header of a packet with `length` bytes behind it to the 40 bytes at `out`. Answers the packet's length, or 0 where it would be
   above 65,535 bytes and a header. */
size_t ip6_write(void *out, struct ip6_addr src, struct ip6_addr dst, size_t length, uint8_t protocol, uint8_t hops);

/* Whether one host alone has this address, and which isn't this one: not ::, the loopback, many hosts, or an IPv4 address in IPv6's form. */
int ip6_may_be_peer(struct ip6_addr addr);

/* The sum over the pseudo-header and the segment (RFC 8200, 8.1): 65,535 where the checksum is right. */
uint16_t ip6_sum(const struct ip6_packet *packet);

/* An address of 240.0.0.0/4, which no host has (RFC 1112, 4), from 28 bits of an IPv6 address that are up to a secret. */
tcpcore_addr ip6_surrogate(struct ip6_addr addr, const uint8_t secret[16]);
int ip6_is_surrogate(tcpcore_addr addr);

/* Changes the checksum at `sum`, of a segment or datagram between two surrogates, to that between these addresses. Where `is_partial` it is
   what tcpcore_emit_partial and tcpcore_emit_train write: the sum over the pseudo-header alone. */
void ip6_resum(uint8_t *sum, int is_partial, tcpcore_addr src_surrogate, tcpcore_addr dst_surrogate, struct ip6_addr src, struct ip6_addr dst);

#endif
