/* What tests that make segments by hand share: a number in network order, and the checksum. */
#ifndef COMPANIONS_MADE_H
#define COMPANIONS_MADE_H

#include "../segment.h"

static inline void write32(uint8_t *at, uint32_t value)
{
    write16(at, (uint16_t)(value >> 16));
    write16(at + 2, (uint16_t)value);
}

/* Writes the checksum over segment and pseudo-header, between 10.0.0.x and 10.0.0.y, of which `lasts` is the sum of x and y (RFC 9293,
   3.1). */
static inline void write_checksum(uint8_t *bytes, size_t length, uint32_t lasts)
{
    uint32_t total = 2 * 0x0a00 + lasts + 6 + (uint32_t)length;
    write16(bytes + AT_CHECKSUM, 0);
    for (size_t at = 0; at < length; at += 2)
        total += at + 1 < length ? read16(bytes + at) : (uint32_t)bytes[at] << 8;
    total = total % 65536 + total / 65536;
    write16(bytes + AT_CHECKSUM, (uint16_t)~(total % 65536 + total / 65536));
}

#endif
