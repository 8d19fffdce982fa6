/*
 * segment.h: where the fields of a TCP segment lie (RFC 9293, 3.1). The companions' own files include it, and no header of
 * theirs: its names are short.
 *
 * This is C over tcpcore.h, tested with them and not proved. A segment is one of at least SEGMENT_HEADER bytes, all of which are there.
 */
#ifndef TCPCORE_SEGMENT_H
#define TCPCORE_SEGMENT_H

#include "tcpcore.h"

#include <stddef.h>
#include <stdint.h>

/* The control bits. */
enum { FIN = 1, SYN = 2, RST = 4, PSH = 8, ACK = 16 };

/* The places of fields, and the bytes of a header without options. */
enum { AT_SEQ = 4, AT_ACK = 8, AT_OFFSET = 12, AT_BITS = 13, AT_WINDOW = 14, AT_CHECKSUM = 16, SEGMENT_HEADER = 20 };

/* Numbers in network order. */
static inline uint16_t read16(const uint8_t *at) { return (uint16_t)(at[0] << 8 | at[1]); }
static inline uint32_t read32(const uint8_t *at) { return (uint32_t)read16(at) << 16 | read16(at + 2); }

static inline void write16(uint8_t *at, uint16_t value)
{
    at[0] = (uint8_t)(value >> 8);
    at[1] = (uint8_t)value;
}

/* A sum of 16-bit words, of which some were taken at once, as one word in one's complement: 2^16 counts as 1 (RFC 1071, 1 and 2). */
static inline uint16_t folded(uint64_t total)
{
    while (total >> 16)
        total = (total & 0xffff) + (total >> 16);
    return (uint16_t)total;
}

/* The one's complement sum of 16-bit words (RFC 1071, 1) and of a number below 2^32; an odd last byte is the high half of a word. Of bytes
   whose checksum is among them and right it is 65,535. */
static inline uint16_t words_sum(const uint8_t *bytes, size_t length, uint64_t total)
{
    size_t at = 0;
    for (; at + 4 <= length; at += 4)
        total += read32(bytes + at);
    if (length & 2)
        total += read16(bytes + at);
    if (length & 1)
        total += (uint64_t)bytes[length - 1] << 8;
    return folded(total);
}

/* Of these control bits those that are set. */
static inline unsigned bits_of(const uint8_t *segment, unsigned bits) { return segment[AT_BITS] & bits; }

/* The bytes of the header with its options. */
static inline size_t header_of(const uint8_t *segment) { return 4 * (size_t)(segment[AT_OFFSET] >> 4); }

#endif
