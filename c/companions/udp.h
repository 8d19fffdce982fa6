/*
 * udp.h: a UDP datagram behind an IPv4 header, written, read and checked (RFC 768; RFC 1122, 4.1).
 *
 * This is C beside ip.h, tested and not proved.
 */
#ifndef TCPCORE_UDP_H
#define TCPCORE_UDP_H

#include "ip.h"

/* The bytes of its header, and of the longest text behind one (RFC 768; RFC 791, 3.1). */
enum { UDP_HEADER = 8, UDP_MOST = 65535 - IP_HEADER - UDP_HEADER };

/* What udp_read answers: the first fault that applies. */
enum {
    UDP_DONE = 0,
    UDP_SHORT = 1,       /* fewer than 8 bytes */
    UDP_BAD_LENGTH = 2,  /* fewer bytes told than a header has, or more than there are */
    UDP_BAD_CHECKSUM = 3 /* there is one, and it is wrong (RFC 1122, 4.1.3.4) */
};

/* What udp_read found. */
struct udp {
    uint16_t src_port, dst_port;
    const uint8_t *text; /* within the packet */
    size_t length;       /* of the text */
};

/* Reads the datagram in a packet of ip_read_any whose protocol is IP_UDP; where `vouched` its checksum isn't looked at. *found is set where
   the answer is UDP_DONE alone. */
int udp_read(const struct ip_packet *packet, int vouched, struct udp *found);

/* Writes the header of a datagram, with its checksum, to the 8 bytes at `out`, behind which `length` bytes of text lie already, at most
   UDP_MOST. Answers the datagram's length. */
size_t udp_write(uint8_t *out, tcpcore_addr src, uint16_t src_port, tcpcore_addr dst, uint16_t dst_port, size_t length);

#endif
