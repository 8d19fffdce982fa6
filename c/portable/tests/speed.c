/* Two ends and a wire that keeps all: speed MEGABYTES carries that many from one to the other, and prints how many segments it took. */
#include "tcpcore.h"

#include <stdio.h>
#include <stdlib.h>

enum { CAPACITY = 65535, MEGABYTE = 1 << 20 };

static const tcpcore_addr A = {{10, 0, 0, 1}}, B = {{10, 0, 0, 2}};
static unsigned char text[CAPACITY], blocks[2][TCPCORE_MEMORY(CAPACITY, CAPACITY)];
static unsigned long segments;

static void carry(tcpcore_end *from, tcpcore_addr src, tcpcore_end *to)
{
    unsigned char segment[TCPCORE_EMIT_ROOM];
    tcpcore_addr dst;
    size_t length;
    for (; tcpcore_emit(from, segment, sizeof segment, &dst, &length) == TCPCORE_DONE; segments++)
        tcpcore_arrive(to, src, dst, segment, length);
}

int main(int argc, char **argv)
{
    unsigned long left = (argc > 1 ? strtoul(argv[1], NULL, 10) : 1) * MEGABYTE, got = 0;
    tcpcore_end a = TCPCORE_END_INIT, b = TCPCORE_END_INIT;
    tcpcore_config config = {.addr = A, .port = 1, .mss = 1460, .isn = 1, .send_capacity = CAPACITY, .recv_capacity = CAPACITY,
                             .limit = TCPCORE_LIMIT};
    size_t count;
    if (tcpcore_new(&a, &config, blocks[0], sizeof *blocks) != TCPCORE_DONE)
        return 1;
    config.addr = B;
    if (tcpcore_new(&b, &config, blocks[1], sizeof *blocks) != TCPCORE_DONE || tcpcore_listen(&b) || tcpcore_connect(&a, B, 1))
        return 1;
    while (left > 0) {
        if (tcpcore_send(&a, text, left < CAPACITY ? left : CAPACITY, &count) == TCPCORE_DONE)
            left -= count;
        carry(&a, A, &b);
        while (tcpcore_receive(&b, text, sizeof text, &count) == TCPCORE_DONE)
            got += count;
        carry(&b, B, &a);
    }
    printf("%lu\n", segments);
    return got == 0;
}
