/*
 * Ends and connections as a program of the versions 11 to 13 makes them, in blocks as large as those versions' header said, and as large as
 * tcpcore_room tells: each is made, and the number that the call finds too many is refused as before.
 */
#include "tcpcore.h"

#include <stdio.h>

__asm__(".symver tcpcore_new, tcpcore_new@TCPCORE_11");
__asm__(".symver tcpcore_new_at, tcpcore_new_at@TCPCORE_11");
__asm__(".symver tcpcore_room, tcpcore_room@TCPCORE_11");
__asm__(".symver tcpcore_connection_connect, tcpcore_connection_connect@TCPCORE_11");
__asm__(".symver tcpcore_connection_listen, tcpcore_connection_listen@TCPCORE_11");
__asm__(".symver tcpcore_connection_room, tcpcore_connection_room@TCPCORE_11");

/* Below as many runs the tables of version 13 have no place for the window, the policy, the recovery and a run. */
enum { FEWEST = 33 };

/* TCPCORE_MEMORY_RUNS and TCPCORE_CONNECTION_MEMORY_RUNS of version 13. */
#define MEMORY_OF_13(send, receive, runs) \
    (TCPCORE_UNITS(send) + TCPCORE_UNITS(receive) + 2 * TCPCORE_UNITS(8 * (size_t)(runs)) + 416 + 15)
#define CONNECTION_MEMORY_OF_13(send, receive, runs) (MEMORY_OF_13(send, receive, runs) - 416 + 720)

static _Alignas(16) unsigned char block[TCPCORE_CONNECTION_MEMORY_RUNS(1000, 1000, TCPCORE_MAX_RUNS) + TCPCORE_STRUCT_ROOM + 1];

static tcpcore_config config_of(uint16_t runs)
{
    tcpcore_config config = TCPCORE_CONFIG_DEFAULT;
    config.addr = (tcpcore_addr){{10, 0, 0, 1}};
    config.port = 7;
    config.send_capacity = config.recv_capacity = 1000;
    config.runs = runs;
    return config;
}

/* In a block of as many bytes as the library tells. */
static int makes_by_room(uint16_t runs)
{
    static const struct tcpcore_connection_rules rules = TCPCORE_CONNECTION_RULES_DEFAULT;
    tcpcore_config config = config_of(runs);
    tcpcore_end end = TCPCORE_END_INIT;
    tcpcore_connection connection = TCPCORE_CONNECTION_INIT;
    return tcpcore_new(&end, &config, block, tcpcore_room(&config)) == TCPCORE_DONE && tcpcore_free(&end) == TCPCORE_DONE &&
        tcpcore_connection_listen(&connection, &config, &rules, 0, block, tcpcore_connection_room(&config)) == TCPCORE_DONE &&
        tcpcore_connection_free(&connection) == TCPCORE_DONE;
}

/* In blocks of that size at any alignment. */
static int makes(uint16_t runs, size_t offset)
{
    static const struct tcpcore_connection_rules rules = TCPCORE_CONNECTION_RULES_DEFAULT;
    uint16_t asked = runs == 0 ? 128 : runs;
    tcpcore_config config = config_of(runs);
    tcpcore_end end = TCPCORE_END_INIT, *at;
    tcpcore_connection connection = TCPCORE_CONNECTION_INIT;
    size_t room = MEMORY_OF_13(1000, 1000, asked), connections = CONNECTION_MEMORY_OF_13(1000, 1000, asked);
    unsigned char *from = block + offset;
    if (tcpcore_new(&end, &config, from, room) != TCPCORE_DONE || tcpcore_free(&end) != TCPCORE_DONE ||
        tcpcore_new_at(&at, &config, from, room + TCPCORE_STRUCT_ROOM) != TCPCORE_DONE || tcpcore_free(at) != TCPCORE_DONE)
        return 0;
    /* A connection has a congestion window, a policy and a recovery, too, for which the tables of the fewest runs have no place. */
    if (asked < FEWEST)
        return tcpcore_connection_listen(&connection, &config, &rules, 0, from, connections) == TCPCORE_NO_MEMORY;
    return tcpcore_connection_listen(&connection, &config, &rules, 0, from, connections) == TCPCORE_DONE &&
        tcpcore_connection_free(&connection) == TCPCORE_DONE &&
        tcpcore_connection_connect(&connection, &config, &rules, config.addr, 9, 0, from, connections) == TCPCORE_DONE &&
        tcpcore_connection_free(&connection) == TCPCORE_DONE && config.runs == runs;
}

int main(void)
{
    tcpcore_end end = TCPCORE_END_INIT;
    tcpcore_config many = config_of(TCPCORE_MAX_RUNS + 1), one = config_of(1);
    uint16_t wrong = 0;
    for (uint16_t runs = 0; runs <= TCPCORE_MAX_RUNS; runs++)
        if (!makes_by_room(runs) || (runs != 1 && runs != 2 && (!makes(runs, 0) || !makes(runs, 1))))
            wrong = runs + 1;
    if (wrong) {
        printf("runs.c: %d runs\n", wrong - 1);
        return 1;
    }
    if (tcpcore_new(&end, &many, block, sizeof block) != TCPCORE_BAD_RUNS || tcpcore_room(&many) != 0 || tcpcore_room(NULL) != 0 ||
        tcpcore_new(&end, NULL, block, sizeof block) != TCPCORE_NULL ||
        tcpcore_new(&end, &one, block, MEMORY_OF_13(1000, 1000, 1)) != TCPCORE_NO_MEMORY) {
        printf("runs.c: a config that is refused\n");
        return 1;
    }
    return 0;
}
