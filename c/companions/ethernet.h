/*
 * ethernet.h: the header of an Ethernet frame, and answers to who asks for an address of one's own (RFC 894; RFC 826).
 *
 * This is C beside ip.h, tested and not proved.
 */
#ifndef TCPCORE_ETHERNET_H
#define TCPCORE_ETHERNET_H

#include "ip.h"

/* The bytes of a header, and of an answer of ethernet_answer. */
enum { ETHERNET_HEADER = 14, ETHERNET_ANSWER = 42 };

/* What a frame carries (RFC 894; RFC 826; RFC 2464, 3). */
enum { ETHERNET_IPV4 = 0x0800, ETHERNET_ARP = 0x0806, ETHERNET_IPV6 = 0x86dd };

struct ethernet_addr {
    uint8_t byte[6];
};

/* Writes a header to the 14 bytes at `out`. */
void ethernet_write(uint8_t *out, struct ethernet_addr dst, struct ethernet_addr src, uint16_t type);

/* From where a frame of at least 14 bytes comes. */
struct ethernet_addr ethernet_src(const uint8_t *frame);

/* What a frame of at least 14 bytes carries. */
uint16_t ethernet_type(const uint8_t *frame);

/* Where a frame of `length` bytes asks for the address `ip` (RFC 826), writes the answer that it is at `own` to the 42 bytes at `out`, and
   answers their count; else 0. */
size_t ethernet_answer(uint8_t *out, const uint8_t *frame, size_t length, struct ethernet_addr own, tcpcore_addr ip);

#endif
