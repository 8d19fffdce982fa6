/* The calls that make an end as a program of version 10 calls them: what lies where `runs` is now was padding, and the end has 11 runs. */
#include "tcpcore.h"

#include <stdio.h>

__asm__(".symver tcpcore_new, tcpcore_new@TCPCORE_4");
__asm__(".symver tcpcore_new_at, tcpcore_new_at@TCPCORE_6");
__asm__(".symver tcpcore_room, tcpcore_room@TCPCORE_4");

enum { ROOM = TCPCORE_MEMORY_RUNS(1000, 1000, 11) };

static _Alignas(16) unsigned char block[ROOM + TCPCORE_STRUCT_ROOM];

static int makes(uint16_t padding)
{
    tcpcore_config config = TCPCORE_CONFIG_DEFAULT;
    tcpcore_end end = TCPCORE_END_INIT, *at;
    config.addr = (tcpcore_addr){{10, 0, 0, 1}};
    config.port = 7;
    config.send_capacity = config.recv_capacity = 1000;
    config.runs = padding;
    return tcpcore_room(&config) == ROOM && tcpcore_new(&end, &config, block, ROOM - 16) == TCPCORE_NO_MEMORY &&
        tcpcore_new(&end, &config, block, ROOM - 15) == TCPCORE_DONE && tcpcore_free(&end) == TCPCORE_DONE &&
        tcpcore_new_at(&at, &config, block, sizeof block) == TCPCORE_DONE && tcpcore_free(at) == TCPCORE_DONE &&
        config.runs == padding;
}

int main(void)
{
    tcpcore_end end = TCPCORE_END_INIT, *at;
    int null = tcpcore_room(NULL) == 0 && tcpcore_new(&end, NULL, block, sizeof block) == TCPCORE_NULL &&
        tcpcore_new_at(&at, NULL, block, sizeof block) == TCPCORE_NULL;
    if (!null || !makes(0) || !makes(1) || !makes(5000) || !makes(UINT16_MAX)) {
        printf("padding.c: padding counts as runs\n");
        return 1;
    }
    return 0;
}
