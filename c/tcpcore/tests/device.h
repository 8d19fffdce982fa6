/* What the tests of trains share: the device that cuts them and sums the pieces (RFC 9293, 3.1 and 3.9.1.2; RFC 1071). */
#ifndef TCPCORE_DEVICE_H
#define TCPCORE_DEVICE_H

#include "sums.h"

#include <string.h>

enum { FIN = 1, PSH = 8 };

static inline uint32_t get16(const unsigned char *at) { return (uint32_t)at[0] << 8 | at[1]; }

/* Piece `which` of the segment of so many bytes in `whole`, which is cut after each `size` bytes of text; all of it where `size` is 0.
   It goes to `out`; how long it is. */
static inline size_t cut_piece(const unsigned char *whole, size_t length, size_t size, size_t which, tcpcore_addr src, tcpcore_addr to,
                               unsigned char *out)
{
    size_t header = (whole[12] >> 4) * 4u, from = size * which, left = length - header - from;
    size_t count = size > 0 && left > size ? size : left;
    uint32_t seq = (get16(whole + 4) << 16 | get16(whole + 6)) + (uint32_t)from;
    memcpy(out, whole, header);
    memcpy(out + header, whole + header + from, count);
    put16(out + 4, seq >> 16);
    put16(out + 6, seq);
    if (count < left)
        out[13] &= (unsigned char)~(PSH | FIN);
    put16(out + 16, 0);
    put16(out + 16, ~summed(pseudo(src, to, header + count), out, header + count));
    return header + count;
}

#endif
