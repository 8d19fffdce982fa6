/* The smallest program: one side connects and sends a line, the other listens and reads it. A network would carry the segments, and a clock
   would tell the time. */
#include "tcpcore.h"

#include <stdio.h>

static const tcpcore_addr A = {{10, 0, 0, 1}}, B = {{10, 0, 0, 2}};
/* Microseconds, from any beginning. */
static uint64_t now;

/* Delivers all that is due at one side to the other; or, where that is NULL, loses it. */
static void carry(tcpcore_connection *from, tcpcore_addr src, tcpcore_connection *to)
{
    unsigned char bytes[TCPCORE_EMIT_ROOM];
    struct tcpcore_connection_segment segment;
    struct tcpcore_arrive_report report;
    while (tcpcore_connection_emit(from, now, UINT64_MAX, bytes, sizeof bytes, &segment) == TCPCORE_DONE)
        if (to != NULL)
            tcpcore_connection_arrive(to, now, src, segment.to, bytes, (size_t)segment.length, &report);
}

int main(void)
{
    static unsigned char memory[2][TCPCORE_CONNECTION_MEMORY(65535, 65535)];
    static const struct tcpcore_connection_rules rules = TCPCORE_CONNECTION_RULES_DEFAULT;
    tcpcore_config config = TCPCORE_CONFIG_DEFAULT;
    tcpcore_connection a = TCPCORE_CONNECTION_INIT, b = TCPCORE_CONNECTION_INIT;
    uint32_t timer;
    char line[64];
    size_t count;
    config.addr = B, config.port = 2, config.isn = 5000;
    if (tcpcore_connection_listen(&b, &config, &rules, now, memory[1], sizeof memory[1]) != TCPCORE_DONE)
        return 1;
    config.addr = A, config.port = 1, config.isn = 1000;
    if (tcpcore_connection_connect(&a, &config, &rules, B, 2, now, memory[0], sizeof memory[0]) != TCPCORE_DONE)
        return 1;
    carry(&a, A, NULL);                          /* the SYN is lost: */
    tcpcore_connection_poll_at(&a, &now);        /* nothing happens before this time, */
    tcpcore_connection_timeout(&a, now, &timer); /* and then it is due again. */
    carry(&a, A, &b);                            /* SYN */
    carry(&b, B, &a);                            /* SYN,ACK */
    tcpcore_connection_send(&a, now, "hello, peer\n", 12, &count);
    carry(&a, A, &b);                            /* ACK, and the line */
    if (tcpcore_connection_receive(&b, now, line, sizeof line, &count) == TCPCORE_DONE)
        printf("%.*s", (int)count, line);
    return 0;
}
