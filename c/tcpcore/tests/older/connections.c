/*
 * Connections as a program of version 14, 16, 17 or 18 makes them, in blocks as large as its header said: each is made, but where fewer than
 * FEWEST runs were asked for, whose tables have no place for what a connection has since (the congestion window, the policy, what it has of
 * a recovery, keep-alives and pacing) and a run; and each in a block as large as tcpcore_connection_room tells. OF is the version, and TOOK what a connection took then.
 */
#include "tcpcore.h"

#include <stdio.h>

#define NODE_OF(version) "TCPCORE_" #version
#define NODE(version) NODE_OF(version)

__asm__(".symver tcpcore_connection_connect, tcpcore_connection_connect@" NODE(OF));
__asm__(".symver tcpcore_connection_listen, tcpcore_connection_listen@" NODE(OF));
__asm__(".symver tcpcore_connection_room, tcpcore_connection_room@TCPCORE_11");

/* TCPCORE_CONNECTION_MEMORY_RUNS of that version. */
#define OLDER_MEMORY(send, receive, runs) (TCPCORE_MEMORY_RUNS(send, receive, runs) - 416 + TOOK)

static _Alignas(16) unsigned char block[TCPCORE_CONNECTION_MEMORY_RUNS(1000, 1000, TCPCORE_MAX_RUNS) + 1];

/* What both calls answer for a block of so many bytes; DONE where both do, and the connection has ended its life well. */
static uint32_t makes(uint16_t runs, size_t offset, size_t length)
{
    static const struct tcpcore_connection_rules rules = TCPCORE_CONNECTION_RULES_DEFAULT;
    tcpcore_config config = TCPCORE_CONFIG_DEFAULT;
    tcpcore_connection connection = TCPCORE_CONNECTION_INIT;
    config.addr = (tcpcore_addr){{10, 0, 0, 1}};
    config.port = 7;
    config.send_capacity = config.recv_capacity = 1000;
    config.runs = runs;
    if (length == 0)
        length = tcpcore_connection_room(&config);
    uint32_t listens = tcpcore_connection_listen(&connection, &config, &rules, 0, block + offset, length);
    if (listens == TCPCORE_DONE)
        tcpcore_connection_free(&connection);
    uint32_t connects = tcpcore_connection_connect(&connection, &config, &rules, config.addr, 9, 0, block + offset, length);
    if (connects == TCPCORE_DONE)
        tcpcore_connection_free(&connection);
    return listens == connects ? listens : TCPCORE_IN_USE;
}

int main(void)
{
    for (uint16_t runs = 0; runs <= TCPCORE_MAX_RUNS; runs++) {
        uint16_t asked = runs == 0 ? TCPCORE_RUNS : runs;
        uint32_t wanted = asked < FEWEST ? TCPCORE_NO_MEMORY : TCPCORE_DONE;
        for (size_t offset = 0; offset < 2; offset++)
            if (makes(runs, offset, OLDER_MEMORY(1000, 1000, asked)) != wanted || makes(runs, 0, 0) != TCPCORE_DONE) {
                printf("connections.c: %d runs\n", runs);
                return 1;
            }
    }
    return 0;
}
