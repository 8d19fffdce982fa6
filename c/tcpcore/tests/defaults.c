/*
 * The test of TCPCORE_CONFIG_DEFAULT and TCPCORE_LEAST_SHIFT, by what ends make of them: the SYN's options (RFC 9293, 3.7.1; RFC 2018, 2;
 * RFC 7323, 2.2) and the windows that are advertised (RFC 7323, 2.3). Numbers are worked out by hand.
 */
#include "carry.h"
#include "check.h"
#include "tcpcore.h"

#include <string.h>

enum { MOST = 1048576 };

static const tcpcore_addr A = {{10, 0, 0, 1}}, B = {{10, 0, 0, 2}};
static const tcpcore_config DEFAULT = TCPCORE_CONFIG_DEFAULT;
static unsigned char blocks[2][TCPCORE_MEMORY(MOST, MOST)];
static tcpcore_end a = TCPCORE_END_INIT, b = TCPCORE_END_INIT;

static void make(tcpcore_end *end, tcpcore_config config, tcpcore_addr addr, uint16_t port)
{
    config.addr = addr;
    config.port = port;
    config.isn = 1;
    CHECK(tcpcore_new(end, &config, blocks[end == &b], sizeof *blocks), TCPCORE_DONE);
}

static void free_both(void)
{
    CHECK(tcpcore_free(&a), TCPCORE_DONE);
    CHECK(tcpcore_free(&b), TCPCORE_DONE);
}

/* The segment of A's that is due, of so many bytes. */
static const unsigned char *emitted(size_t wanted)
{
    static unsigned char segment[TCPCORE_EMIT_ROOM];
    size_t length;
    tcpcore_addr to;
    CHECK(tcpcore_emit(&a, segment, sizeof segment, &to, &length), TCPCORE_DONE);
    CHECK(length, wanted);
    return segment;
}

static int window_of(const unsigned char *segment) { return segment[14] << 8 | segment[15]; }

/* An MSS of 1,460 bytes, selective acknowledgement, no scaling, 65,535 bytes each way. */
static void defaults(void)
{
    static const unsigned char OPTIONS[] = {2, 4, 5, 180, 1, 1, 4, 2};
    CHECK(DEFAULT.limit == TCPCORE_LIMIT, 1);
    make(&a, DEFAULT, A, 7);
    make(&b, DEFAULT, B, 8);
    CHECK(tcpcore_connect(&a, B, 8), TCPCORE_DONE);
    const unsigned char *syn = emitted(28);
    CHECK(memcmp(syn + 20, OPTIONS, sizeof OPTIONS), 0);
    CHECK(window_of(syn), 65535);
    size_t taken;
    CHECK(tcpcore_send(&a, blocks[1], 70000, &taken), TCPCORE_DONE);
    CHECK(taken, 65535);
    free_both();
}

/* The window in bytes that an end of this receive capacity advertises behind `unread` bytes that aren't read. */
static long advertised(uint32_t capacity, uint8_t shift, size_t unread)
{
    tcpcore_config config = DEFAULT;
    size_t taken;
    config.scales = 1;
    make(&b, config, B, 8);
    config.recv_capacity = capacity;
    config.window_shift = shift;
    make(&a, config, A, 7);
    CHECK(tcpcore_listen(&b), TCPCORE_DONE);
    CHECK(tcpcore_connect(&a, B, 8), TCPCORE_DONE);
    carry(&a, A, &b);
    carry(&b, B, &a);
    carry(&a, A, &b);
    CHECK(tcpcore_send(&b, "unread", unread, &taken), TCPCORE_DONE);
    carry(&b, B, &a);
    CHECK(tcpcore_acknowledge(&a), TCPCORE_DONE);
    long window = (long)window_of(emitted(20)) << shift;
    free_both();
    return window;
}

/* The least shift with capacity >> shift at most 65,535: all of the capacity is advertised, less than a step of it rounded off. */
static void least_shifts(void)
{
    static const uint32_t CAPACITIES[] = {1, 65535, 65536, 131071, 131072, 262143, 262144, 524287, 524288, 1048575, MOST};
    static const uint8_t SHIFTS[] = {0, 0, 1, 1, 2, 2, 3, 3, 4, 4, 5};
    _Static_assert(TCPCORE_LEAST_SHIFT(MOST) == 5, "a constant");
    for (size_t at = 0; at < sizeof SHIFTS; at++) {
        CHECK(TCPCORE_LEAST_SHIFT(CAPACITIES[at]), SHIFTS[at]);
        CHECK(advertised(CAPACITIES[at], SHIFTS[at], 0), CAPACITIES[at] >> SHIFTS[at] << SHIFTS[at]);
    }
}

/* With a greater one the window is 0 while fewer than 2^14 bytes are free. */
static void too_great(void)
{
    CHECK(advertised(16383, 14, 0), 0);
    CHECK(advertised(16384, 14, 0), 16384);
    CHECK(advertised(16384, 14, 1), 0);
    CHECK(advertised(60000, 14, 6), 49152);
}

int main(void)
{
    defaults();
    least_shifts();
    too_great();
    printf("defaults: as tcpcore.h says\n");
    return 0;
}
