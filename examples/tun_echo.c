// An echo server for many clients on a TUN device of Linux: a connection for each, which keeps its own times, under CUBIC's window, with
// losses found by time and delayed acknowledgements. It is for a network that is trusted: who sends SYNs from many addresses takes all
// places for the three minutes that a SYN may be without an answer, and a client that has vanished keeps its own. tun_http.c has limits for
// both.
//
//     cc -std=c11 -O2 -Irelease -Ic/companions examples/tun_echo.c c/companions/ip.c release/tcpcore.c -o tun_echo
//     sudo ./tun_echo tun0 10.9.0.2/24 7 &
//     sudo ip address add 10.9.0.1/24 dev tun0 && sudo ip link set tun0 up
//     nc 10.9.0.2 7
#define _GNU_SOURCE
#include "ip.h"
#include "tcpcore.h"

#include <fcntl.h>
#include <linux/if_tun.h>
#include <net/if.h>
#include <poll.h>
#include <stdio.h>
#include <stdlib.h>
#include <string.h>
#include <sys/ioctl.h>
#include <time.h>
#include <unistd.h>

enum { CLIENTS = 128, CAPACITY = 65535, HEADER = 20, SYN = 2, RST = 4, ACK = 16, AT_ONCE = 256 };

struct client {
    tcpcore_connection connection;
    int is_used;
    tcpcore_addr addr;
    unsigned char port[2], recovery[TCPCORE_RECOVERY_MEMORY], memory[TCPCORE_CONNECTION_MEMORY(CAPACITY, CAPACITY)];
};

static struct client clients[CLIENTS];
static struct ip_net own;
static tcpcore_config config = TCPCORE_CONFIG_DEFAULT;
static struct tcpcore_connection_rules rules = TCPCORE_CONNECTION_RULES_DEFAULT;
static const struct tcpcore_policy policy = TCPCORE_POLICY_DEFAULT;

static uint64_t microseconds(void)
{
    struct timespec time;
    clock_gettime(CLOCK_MONOTONIC, &time);
    return (uint64_t)time.tv_sec * 1000000 + (uint64_t)time.tv_nsec / 1000;
}

/* Puts a segment behind an IPv4 header. What the device can't take is lost, and TCP sends it again. */
static void send_segment(int device, const void *segment, size_t length, tcpcore_addr to)
{
    unsigned char packet[IP_HEADER + TCPCORE_EMIT_ROOM];
    size_t total = ip_write(packet, own.addr, to, length);
    memcpy(packet + IP_HEADER, segment, length);
    if (write(device, packet, total) < 0)
        perror("lost");
}

/* The client that a segment is from; for a SYN from somebody else one that listens from now on, if there is room; else NULL. */
static struct client *client_of(tcpcore_addr src, const unsigned char *segment, uint64_t now)
{
    struct client *client = NULL;
    for (size_t i = 0; i < CLIENTS; i++) {
        if (!clients[i].is_used)
            client = &clients[i];
        else if (memcmp(&clients[i].addr, &src, sizeof src) == 0 && memcmp(clients[i].port, segment, 2) == 0)
            return &clients[i];
    }
    if (client == NULL || (segment[13] & (SYN | RST | ACK)) != SYN || getentropy(&config.isn, sizeof config.isn) != 0)
        return NULL;
    client->addr = src;
    memcpy(client->port, segment, 2);
    client->is_used = tcpcore_connection_listen(&client->connection, &config, &rules, now, client->memory, sizeof client->memory) == TCPCORE_DONE;
    if (!client->is_used)
        return NULL;
    tcpcore_connection_set_congestion(&client->connection, TCPCORE_CONGESTION_CUBIC);
    tcpcore_connection_set_recovery(&client->connection, now, client->recovery, sizeof client->recovery);
    tcpcore_connection_set_policy(&client->connection, &policy);
    return client;
}

/* Sends back what came, as far as there is room; behind the last of it closes. */
static void echo(struct client *client, uint64_t now)
{
    static unsigned char text[CAPACITY];
    struct tcpcore_status status;
    size_t count;
    uint32_t answer = TCPCORE_DONE;
    while (answer == TCPCORE_DONE) {
        tcpcore_connection_status(&client->connection, &status);
        if (status.room == 0)
            return;
        answer = tcpcore_connection_receive(&client->connection, now, text, (size_t)status.room, &count);
        if (answer == TCPCORE_DONE)
            tcpcore_connection_send(&client->connection, now, text, count, &count);
    }
    if (answer == TCPCORE_END_OF_STREAM && !status.closing)
        tcpcore_connection_close(&client->connection, now);
}

/* What is to be done for a client now. Answers when it has to be called again. */
static uint64_t turn(struct client *client, int device, uint64_t now)
{
    unsigned char segment[TCPCORE_EMIT_ROOM];
    struct tcpcore_connection_segment sent;
    struct tcpcore_status status;
    uint64_t at = TCPCORE_NEVER;
    uint32_t timer;
    tcpcore_connection_timeout(&client->connection, now, &timer);
    echo(client, now);
    while (tcpcore_connection_emit(&client->connection, now, UINT64_MAX, segment, sizeof segment, &sent) == TCPCORE_DONE)
        send_segment(device, segment, (size_t)sent.length, sent.to);
    tcpcore_connection_status(&client->connection, &status);
    tcpcore_connection_poll_at(&client->connection, &at);
    /* One that still listens was no client's: its SYN had a fault. */
    if (status.phase == TCPCORE_PHASE_CLOSED || status.phase == TCPCORE_PHASE_LISTEN) {
        tcpcore_connection_free(&client->connection);
        client->is_used = 0;
    }
    return at;
}

/* Hands over what has come, each segment to its client; where there is none a reset answers it. Then timers and users have their turn. */
static void read_device(int device, uint64_t now)
{
    static unsigned char bytes[65535], reset[TCPCORE_EMIT_ROOM];
    struct tcpcore_arrive_report report;
    struct ip_packet packet;
    ssize_t length;
    size_t written;
    for (int i = 0; i < AT_ONCE && (length = read(device, bytes, sizeof bytes)) > 0; i++) {
        if (ip_read(own, bytes, (size_t)length, &packet) != IP_DONE || packet.length < HEADER)
            continue;
        const unsigned char *segment = packet.segment;
        int is_ours = segment[2] * 256 + segment[3] == config.port;
        struct client *client = is_ours ? client_of(packet.src, segment, now) : NULL;
        if (client != NULL) {
            tcpcore_connection_arrive(&client->connection, now, packet.src, own.addr, segment, packet.length, &report);
            if (report.at_once)
                turn(client, device, now);
        } else if (tcpcore_stray_reset(packet.src, own.addr, segment, packet.length, reset, sizeof reset, &written) == TCPCORE_DONE)
            send_segment(device, reset, written, packet.src);
    }
}

static int open_device(const char *name)
{
    struct ifreq request = {.ifr_flags = IFF_TUN | IFF_NO_PI};
    snprintf(request.ifr_name, sizeof request.ifr_name, "%s", name);
    int device = open("/dev/net/tun", O_RDWR | O_NONBLOCK | O_CLOEXEC);
    return device >= 0 && ioctl(device, TUNSETIFF, &request) == 0 ? device : -1;
}

int main(int count, char **words)
{
    unsigned char *byte = own.addr.byte;
    int device = count == 4 ? open_device(words[1]) : -1;
    if (device < 0 || sscanf(words[2], "%hhu.%hhu.%hhu.%hhu/%hhu", byte, byte + 1, byte + 2, byte + 3, &own.prefix) != 5)
        return fputs("usage: tun_echo DEVICE ADDRESS/PREFIX PORT, as root\n", stderr), 1;
    config.addr = own.addr, config.port = (uint16_t)strtoul(words[3], NULL, 10);
    config.send_capacity = config.recv_capacity = CAPACITY;
    puts("ready");
    fflush(stdout);
    for (uint64_t next = TCPCORE_NEVER;;) {
        struct pollfd it = {.fd = device, .events = POLLIN};
        uint64_t now = microseconds();
        poll(&it, 1, next == TCPCORE_NEVER ? -1 : next <= now ? 0 : (int)((next - now) / 1000 + 1));
        now = microseconds();
        read_device(device, now);
        next = TCPCORE_NEVER;
        for (size_t i = 0; i < CLIENTS; i++) {
            uint64_t at = clients[i].is_used ? turn(&clients[i], device, now) : TCPCORE_NEVER;
            next = at < next ? at : next;
        }
    }
}
