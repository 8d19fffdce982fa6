/* What some tests share: a wire between two ends. */
#ifndef TCPCORE_CARRY_H
#define TCPCORE_CARRY_H

#include "tcpcore.h"

/* Emits all that is due, and hands it to the other end. `src` is the address that it comes from. */
static void carry(tcpcore_end *from, tcpcore_addr src, tcpcore_end *to)
{
    unsigned char segment[TCPCORE_EMIT_ROOM];
    tcpcore_addr dst;
    size_t length;
    while (tcpcore_emit(from, segment, sizeof segment, &dst, &length) == TCPCORE_DONE)
        tcpcore_arrive(to, src, dst, segment, length);
}

#endif
