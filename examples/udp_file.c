// A file over UDP, a segment in each datagram, of which each tenth is lost: all that a connection wants of its carrier.
//
//     cc -std=c11 -O2 -Irelease examples/udp_file.c release/tcpcore.c -o udp_file
//     ./udp_file 7777 >copy &
//     ./udp_file 127.0.0.1 7777 <README.md
#define _GNU_SOURCE
#include "tcpcore.h"

#include <arpa/inet.h>
#include <poll.h>
#include <stdio.h>
#include <stdlib.h>
#include <sys/socket.h>
#include <time.h>
#include <unistd.h>

/* What the two sides are called in TCP; UDP's addresses are the carrier's alone. */
static const tcpcore_addr SIDES[2] = {{{10, 0, 0, 1}}, {{10, 0, 0, 2}}};
static unsigned char memory[TCPCORE_CONNECTION_MEMORY(65535, 65535)], bytes[65535];
static tcpcore_connection connection = TCPCORE_CONNECTION_INIT;

static uint64_t microseconds(void)
{
    struct timespec time;
    clock_gettime(CLOCK_MONOTONIC, &time);
    return (uint64_t)time.tv_sec * 1000000 + (uint64_t)time.tv_nsec / 1000;
}

static struct tcpcore_status status(void)
{
    struct tcpcore_status told;
    tcpcore_connection_status(&connection, &told);
    return told;
}

/* The server's user writes what comes. Whether the peer has closed, and all was read. */
static int receive(uint64_t now)
{
    size_t count;
    uint32_t answer;
    while ((answer = tcpcore_connection_receive(&connection, now, bytes, sizeof bytes, &count)) == TCPCORE_DONE)
        fwrite(bytes, 1, count, stdout);
    return answer == TCPCORE_END_OF_STREAM;
}

/* The client's user sends as much of its input as there is room for. Whether that was all, and the connection is open. */
static int send_input(uint64_t now)
{
    size_t count, room = (size_t)status().room;
    count = fread(bytes, 1, room < sizeof bytes ? room : sizeof bytes, stdin);
    tcpcore_connection_send(&connection, now, bytes, count, &count);
    return (feof(stdin) || ferror(stdin)) && status().phase >= TCPCORE_PHASE_ESTABLISHED;
}

static void emit(uint64_t now, int carrier)
{
    static unsigned count;
    struct tcpcore_connection_segment segment;
    while (tcpcore_connection_emit(&connection, now, UINT64_MAX, bytes, sizeof bytes, &segment) == TCPCORE_DONE)
        if (++count % 10 != 0 && send(carrier, bytes, (size_t)segment.length, 0) < 0)
            perror("lost"); /* It is sent again. */
}

/* Waits for a datagram, or until a timer expires; a server sends to where the SYN came from. */
static void wait_and_arrive(int carrier, int is_client)
{
    struct tcpcore_arrive_report report;
    struct sockaddr_in from;
    socklen_t size = sizeof from;
    uint64_t at, now = microseconds();
    tcpcore_connection_poll_at(&connection, &at);
    struct pollfd it = {.fd = carrier, .events = POLLIN};
    poll(&it, 1, at == TCPCORE_NEVER ? -1 : at <= now ? 0 : (int)((at - now) / 1000 + 1));
    ssize_t length = recvfrom(carrier, bytes, sizeof bytes, MSG_DONTWAIT, (struct sockaddr *)&from, &size);
    if (length < 0)
        return;
    int listens = status().phase == TCPCORE_PHASE_LISTEN;
    tcpcore_connection_arrive(&connection, microseconds(), SIDES[is_client], SIDES[!is_client], bytes, (size_t)length, &report);
    if (listens && status().phase != TCPCORE_PHASE_LISTEN && connect(carrier, (struct sockaddr *)&from, size) != 0)
        perror("connect");
}

/* Makes the connection and its carrier. Whether that could be done. */
static int set_up(int is_client, const char *host, const char *port, int carrier)
{
    struct sockaddr_in at = {.sin_family = AF_INET, .sin_port = htons((uint16_t)atoi(port))};
    struct tcpcore_connection_rules rules = TCPCORE_CONNECTION_RULES_DEFAULT;
    tcpcore_config config = TCPCORE_CONFIG_DEFAULT;
    config.addr = SIDES[!is_client], config.port = 7;
    config.mss = 1452; /* A segment, and UDP's and IPv4's headers, are a packet of 1,500 bytes. */
    rules.least = 50000, rules.time_wait = 1000000; /* The way is short. */
    if (carrier < 0 || inet_pton(AF_INET, host, &at.sin_addr) != 1 || getentropy(&config.isn, sizeof config.isn) != 0)
        return 0;
    if ((is_client ? connect(carrier, (struct sockaddr *)&at, sizeof at) : bind(carrier, (struct sockaddr *)&at, sizeof at)) != 0)
        return 0;
    return TCPCORE_DONE == (is_client ? tcpcore_connection_connect(&connection, &config, &rules, SIDES[1], 7, microseconds(), memory, sizeof memory)
                                      : tcpcore_connection_listen(&connection, &config, &rules, microseconds(), memory, sizeof memory));
}

int main(int count, char **words)
{
    int is_client = count == 3, is_closed = 0, carrier = socket(AF_INET, SOCK_DGRAM, 0);
    uint32_t timer;
    if (count < 2 || count > 3 || !set_up(is_client, is_client ? words[1] : "0.0.0.0", words[count - 1], carrier))
        return fputs("usage: udp_file [ADDRESS] PORT; with an address it sends its input there\n", stderr), 1;
    while (status().phase != TCPCORE_PHASE_CLOSED) {
        uint64_t now = microseconds();
        tcpcore_connection_timeout(&connection, now, &timer);
        int is_done = is_client ? send_input(now) : receive(now);
        if (is_done && !is_closed)
            is_closed = tcpcore_connection_close(&connection, now) == TCPCORE_DONE;
        emit(now, carrier);
        if (status().phase != TCPCORE_PHASE_CLOSED)
            wait_and_arrive(carrier, is_client);
    }
    return status().ending == TCPCORE_ENDING_ORDERLY && !ferror(stdin) && fflush(stdout) == 0 && !ferror(stdout) ? 0 : 1;
}
