/* What the tests of misuse share: addresses, a length that no buffer has, a config, and what is zero. */
#ifndef TCPCORE_MISUSE_H
#define TCPCORE_MISUSE_H

#include "check.h"
#include "tcpcore.h"

#include <string.h>

static const tcpcore_addr HERE = {{10, 0, 0, 1}}, THERE = {{10, 0, 0, 2}}, NOWHERE = {{0, 0, 0, 0}};
static const size_t HUGE_LENGTH = (size_t)PTRDIFF_MAX + 1;

static inline tcpcore_config good_config(tcpcore_addr addr)
{
    return (tcpcore_config){
        .addr = addr, .port = 9, .mss = 1460, .isn = 1, .send_capacity = 1000, .recv_capacity = 1000, .limit = TCPCORE_LIMIT,
        .sack = 1};
}

/* Whether all of a struct is 0. */
static inline int is_zero(const void *at, size_t size)
{
    const unsigned char *bytes = at;
    unsigned char any = 0;
    for (size_t i = 0; i < size; i++)
        any |= bytes[i];
    return any == 0;
}

static inline int is_empty(const tcpcore_end *end)
{
    static const tcpcore_end EMPTY = TCPCORE_END_INIT;
    return memcmp(end, &EMPTY, sizeof EMPTY) == 0;
}

#endif
