/* What some tests share: the sums of a device (RFC 1071; RFC 9293, 3.1). */
#ifndef TCPCORE_SUMS_H
#define TCPCORE_SUMS_H

#include "tcpcore.h"

/* The ones' complement sum over these bytes, and what was summed before (RFC 1071, 1). */
static uint32_t summed(uint32_t sum, const unsigned char *bytes, size_t length)
{
    for (size_t i = 0; i < length; i++)
        sum += i % 2 ? bytes[i] : (uint32_t)bytes[i] << 8;
    while (sum >> 16)
        sum = (sum & 0xffff) + (sum >> 16);
    return sum;
}

/* Of the pseudo-header (RFC 9293, 3.1). */
static uint32_t pseudo(tcpcore_addr src, tcpcore_addr dst, size_t length)
{
    return summed(summed(summed((uint32_t)length + 6, src.byte, 4), dst.byte, 4), NULL, 0);
}

static void put16(unsigned char *at, uint32_t value)
{
    at[0] = (unsigned char)(value >> 8);
    at[1] = (unsigned char)value;
}

#endif
