/*
 * ip.h: the IPv4 header around a TCP segment, or around what another protocol sends, written, read and checked (RFC 791,
 * 3.1; RFC 1122, 3.2.1).
 *
 * This is C beside tcpcore.h, tested and not proved. There is no reassembly: a TCP that advertises its MSS keeps clear of
 * fragments.
 */
#ifndef TCPCORE_IP_H
#define TCPCORE_IP_H

#include "tcpcore.h"

/* The bytes of a header without options. */
#define IP_HEADER 20

/* Protocols, as the header numbers them (RFC 791, 3.1). */
enum { IP_ICMP = 1, IP_TCP = 6, IP_UDP = 17 };

/* What ip_read answers: the first fault that applies. */
enum {
    IP_DONE = 0,
    IP_SHORT = 1,           /* fewer than 20 bytes */
    IP_BAD_VERSION = 2,     /* not version 4 (RFC 1122, 3.2.1.1) */
    IP_BAD_LENGTH = 3,      /* header below 20 bytes, packet below its header, or more bytes told than there are */
    IP_BAD_CHECKSUM = 4,    /* of the header (RFC 1122, 3.2.1.2) */
    IP_NOT_MINE = 5,        /* to another address, to many, or to none (RFC 1122, 3.2.1.3) */
    IP_BAD_SOURCE = 6,      /* from an address that no peer has (RFC 1122, 3.2.1.3) */
    IP_FRAGMENT = 7,        /* a piece of a packet (RFC 791, 3.2) */
    IP_OTHER_PROTOCOL = 8   /* not TCP */
};

/* An address of its own in its network: 10.9.0.2/24 is {{{10, 9, 0, 2}}, 24}. */
struct ip_net {
    tcpcore_addr addr;
    uint8_t prefix; /* bits of the network's number, 0 to 32 */
};

/* What ip_read found. */
struct ip_packet {
    tcpcore_addr src, dst;
    const uint8_t *segment; /* within the bytes that were read */
    size_t length;          /* of the segment, without what the link put behind the packet */
};

/*
 * Whether an address can be a peer's. Not: network 0, loopback, multicast and above (so limited broadcast), its own
 * address, and of its own network its number and its broadcast (RFC 1122, 3.2.1.3; RFC 9293, 3.9.2.3), but where it
 * has only two addresses or one.
 */
int ip_may_be_peer(struct ip_net own, tcpcore_addr addr);

/* Reads the packet at the front of `length` bytes. *packet is set where the answer is IP_DONE alone. Options are
   passed over. */
int ip_read(struct ip_net own, const void *bytes, size_t length, struct ip_packet *packet);

/* The same of any protocol, whose number goes into *protocol: `segment` is then all that lies behind the header. It never answers
   IP_OTHER_PROTOCOL. */
int ip_read_any(struct ip_net own, const void *bytes, size_t length, struct ip_packet *packet, uint8_t *protocol);

/*
 * Writes the header of a packet that carries a TCP segment of `length` bytes, not to be fragmented, to the 20 bytes
 * at `out`; the segment goes behind it. Answers the packet's length, or 0 where it would be above 65,535 bytes.
 */
size_t ip_write(void *out, tcpcore_addr src, tcpcore_addr dst, size_t length);

/* The same around what another protocol sends. */
size_t ip_write_any(void *out, tcpcore_addr src, tcpcore_addr dst, size_t length, uint8_t protocol);

/* What a header has that the user may choose (RFC 9293, 3.9.1: MUST-48, MUST-49). All zero is what ip_write writes. */
struct ip_choices {
    uint8_t ttl;        /* how many routers a packet may pass; 0 means 64, the default (RFC 1700) */
    uint8_t services;   /* the byte with the DiffServ codepoint in its upper six bits (RFC 2474, 3) */
    uint8_t may_be_cut; /* whether routers may fragment it: "don't fragment" isn't set then (RFC 791, 3.1) */
    uint16_t id;        /* the identification of a packet that may be cut: none of these addresses and this protocol that are still
                           under way has the same (RFC 6864, 4.3). What is never cut needs none, and has 0 */
};

/* The same with these choices. */
size_t ip_write_chosen(void *out, tcpcore_addr src, tcpcore_addr dst, size_t length, uint8_t protocol, const struct ip_choices *choices);

#endif
