/*
 * icmp.h: ICMP messages behind an IPv4 header: echoes, and that a packet couldn't be delivered, written and read (RFC 792; RFC
 * 1122, 3.2.2).
 *
 * This is C beside ip.h, tested and not proved.
 */
#ifndef TCPCORE_ICMP_H
#define TCPCORE_ICMP_H

#include "ip.h"

/* The bytes of a message's header; the longest message of icmp_unreachable: with an IPv4 header of 60 bytes and 8 behind it. */
enum { ICMP_HEADER = 8, ICMP_ROOM = ICMP_HEADER + 68 };

/* Types of messages, and codes of ICMP_UNREACHABLE (RFC 792; RFC 1812, 5.2.7.1). */
enum { ICMP_REPLY = 0, ICMP_UNREACHABLE = 3, ICMP_QUENCH = 4, ICMP_ECHO = 8, ICMP_EXPIRED = 11, ICMP_BAD_HEADER = 12 };
enum { ICMP_NO_NET = 0, ICMP_NO_HOST = 1, ICMP_NO_PROTOCOL = 2, ICMP_NO_PORT = 3, ICMP_TOO_BIG = 4, ICMP_PROHIBITED = 13 };

/* What an error says, and what it quotes of the packet that met it: this host's own, if the error is true. */
struct icmp_error {
    uint8_t type, code;
    uint8_t protocol;            /* of that packet, as all that follows */
    tcpcore_addr src, dst;       /* from where it came, and where it went */
    uint16_t src_port, dst_port; /* of a segment or datagram */
    uint32_t seq;                /* of a segment */
    uint16_t length;             /* its bytes with the IPv4 header */
    uint16_t mtu;                /* of ICMP_TOO_BIG: what the next hop takes, 0 where the router doesn't say (RFC 1191, 4) */
};

/* Whether a packet of ip_read_any whose protocol is IP_ICMP has a whole message, with the right checksum. */
int icmp_is_whole(const struct ip_packet *packet);

/* The identifier of an echo or of its reply, which tells one sender from another on its host (RFC 792). */
uint16_t icmp_id(const uint8_t *message);

/* Makes an echo or a reply of a message that is either, with this identifier: type, code and checksum are written. */
void icmp_make_echo(uint8_t *message, size_t length, uint8_t type, uint16_t id);

/*
 * Whether a packet of ip_read_any whose protocol is IP_ICMP is an error about a packet: ICMP_UNREACHABLE, ICMP_EXPIRED or ICMP_BAD_HEADER,
 * whole, and with the IPv4 header that met it and 8 bytes behind that. *found is set then. ICMP_QUENCH is none: it is discarded (RFC
 * 6633, 3). Of a packet that was cut only the first piece has ports, so that an error about another one is none either.
 */
int icmp_read_error(const struct ip_packet *packet, struct icmp_error *found);

/* Writes to `out`, of ICMP_ROOM bytes, that the packet at `packet`, of `length` bytes and with its IPv4 header in front, couldn't be
   delivered. Answers the message's length. */
size_t icmp_unreachable(uint8_t *out, uint8_t code, const uint8_t *packet, size_t length);

#endif
