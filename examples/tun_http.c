// A TCP stack in user space: an HTTP server on a TUN device of Linux, which answers each request by one file. Many clients are served at
// once, by the connections of one host: each has its own times, CUBIC's window, losses found by time, and delayed acknowledgements.
//
//     cc -std=c11 -O2 -Irelease -Ic/companions examples/tun_http.c c/companions/ip.c c/companions/secret.c release/tcpcore.c -o tun_http
//     sudo ./tun_http tun0 10.9.0.2/24 80 README.md &
//     sudo ip address add 10.9.0.1/24 dev tun0 && sudo ip link set tun0 up
//     curl http://10.9.0.2/
#define _GNU_SOURCE
#include "ip.h"
#include "secret.h"
#include "tcpcore.h"

#include <fcntl.h>
#include <linux/if_tun.h>
#include <net/if.h>
#include <poll.h>
#include <stdio.h>
#include <stdlib.h>
#include <string.h>
#include <sys/ioctl.h>
#include <time.h>
#include <unistd.h>

#ifndef TCPCORE_HAS_HOSTS
#error "there are no hosts here, only in machine code: see HOSTS in tcpcore.h"
#endif

enum { CLIENTS = 256, BACKLOG = CLIENTS / 2, SEND = 65535, RECEIVE = 8192, HEAD = 128, LARGEST_FILE = 1 << 20, BATCH = 64 };

/* In microseconds. The server closes first, so that TIME-WAIT is on its side: 2 seconds of it, because a client that comes again from the
   same port is refused while it lasts. A client of which nothing is heard for PATIENCE gives its place back, whether it has vanished or asks
   for nothing. One stray is answered in STRAY_INTERVAL. */
enum { SECOND = 1000000, TIME_WAIT = 2 * SECOND, PATIENCE = 120 * SECOND, STRAY_INTERVAL = 1000 };

/* So many records of TIME-WAIT are kept; what ends behind them is forgotten at once, and a FIN of it that comes again is answered by a
   reset. */
enum { RECORDS = 4096 };

static const char BLANK_LINE[] = "\r\n\r\n";
enum { ASKED = sizeof BLANK_LINE - 1 };

struct client {
    struct tcpcore_host_id id;
    int is_used, is_open;
    size_t asked;   /* so many bytes of the blank line that ends a request have come */
    size_t sent;    /* so many bytes of the response were taken */
    uint64_t heard; /* when a segment came */
    unsigned char memory[TCPCORE_CONNECTION_MEMORY(SEND, RECEIVE)], recovery[TCPCORE_RECOVERY_MEMORY];
};

static tcpcore_host host;
static struct tcpcore_host_id listener;
static struct client clients[CLIENTS], *by_slot[CLIENTS];
static unsigned char tables[TCPCORE_HOST_MEMORY(CLIENTS, RECORDS, 1, BACKLOG)];
static size_t records; /* how many there are */
static tcpcore_config config = TCPCORE_CONFIG_DEFAULT;
static struct tcpcore_connection_rules rules = TCPCORE_CONNECTION_RULES_DEFAULT;
static struct tcpcore_policy policy = TCPCORE_POLICY_DEFAULT;

static int device;
static struct ip_net own;
static uint8_t secret[16];
static char response[HEAD + LARGEST_FILE];
static size_t response_length;

static uint64_t microseconds(void)
{
    struct timespec time;
    clock_gettime(CLOCK_MONOTONIC, &time);
    return (uint64_t)time.tv_sec * SECOND + (uint64_t)time.tv_nsec / 1000;
}

/* Puts a segment behind an IPv4 header. What the device can't take is lost, and TCP sends it again. */
static void send_segment(const void *segment, size_t length, tcpcore_addr to)
{
    unsigned char packet[IP_HEADER + TCPCORE_EMIT_ROOM];
    size_t total = ip_write(packet, own.addr, to, length);
    memcpy(packet + IP_HEADER, segment, length);
    if (write(device, packet, total) < 0)
        return;
}

/* Its connection leaves the host without a trace, and it its place. */
static void leave(struct client *client)
{
    tcpcore_connection connection = TCPCORE_CONNECTION_INIT;
    tcpcore_host_remove(&host, &client->id, &connection);
    tcpcore_connection_free(&connection);
    client->is_used = 0;
}

/* A client that has nothing to send leaves if it is done, in TIME-WAIT behind a record. One that still listens was none: its SYN had a
   fault. */
static void settle(struct client *client)
{
    tcpcore_connection connection = TCPCORE_CONNECTION_INIT;
    struct tcpcore_status status;
    if (tcpcore_host_status(&host, &client->id, &status) != TCPCORE_DONE)
        return;
    /* One that finds no room for its record leaves without one. */
    int is_full = records == RECORDS && status.phase == TCPCORE_PHASE_TIME_WAIT;
    uint32_t answer = is_full ? TCPCORE_NO_MEMORY : tcpcore_host_retire(&host, &client->id, &connection);
    if (answer == TCPCORE_DONE) {
        tcpcore_connection_free(&connection);
        client->is_used = 0;
        records++;
    } else if (answer == TCPCORE_NO_MEMORY || status.phase == TCPCORE_PHASE_CLOSED || status.phase == TCPCORE_PHASE_LISTEN) {
        leave(client);
    }
}

/* Sends all that may go out. */
static void emit(uint64_t now)
{
    unsigned char segment[TCPCORE_EMIT_ROOM];
    struct tcpcore_host_sent sent;
    uint32_t answer;
    while ((answer = tcpcore_host_emit(&host, now, UINT64_MAX, segment, sizeof segment, &sent)) != TCPCORE_NOBODY)
        if (answer == TCPCORE_DONE)
            send_segment(segment, (size_t)sent.length, sent.to);
        else if (sent.place == TCPCORE_PLACE_END)
            settle(by_slot[sent.id.slot]);
}

/* A place for one client more. Where all are taken, or the backlog is full, the oldest handshake makes way (RFC 4987, 3.4); NULL where
   there is none. */
static struct client *free_place(int is_full)
{
    struct client *oldest = NULL;
    for (struct client *client = clients; client < clients + CLIENTS; client++) {
        if (!client->is_used && !is_full)
            return client;
        if (client->is_used && !client->is_open && (!oldest || client->id.number < oldest->id.number))
            oldest = client;
    }
    if (oldest)
        leave(oldest);
    return oldest;
}

/* A connection for a client that asks for one. Whether there is one. */
static int admit(const struct ip_packet *packet, int is_full, uint64_t now)
{
    struct client *client = free_place(is_full);
    tcpcore_connection connection = TCPCORE_CONNECTION_INIT;
    uint16_t port = (uint16_t)(packet->segment[0] << 8 | packet->segment[1]);
    if (!client)
        return 0;
    config.isn = secret_isn(secret, own.addr, config.port, packet->src, port, now);
    tcpcore_connection_listen(&connection, &config, &rules, now, client->memory, sizeof client->memory);
    tcpcore_connection_set_congestion(&connection, TCPCORE_CONGESTION_CUBIC);
    tcpcore_connection_set_recovery(&connection, now, client->recovery, sizeof client->recovery);
    tcpcore_connection_set_policy(&connection, &policy);
    if (tcpcore_host_admit(&host, &listener, &connection, packet->src, packet->dst, packet->segment, packet->length, &client->id) !=
        TCPCORE_DONE) {
        tcpcore_connection_free(&connection);
        return 0;
    }
    client->is_used = 1, client->is_open = 0;
    client->asked = client->sent = 0;
    by_slot[client->id.slot] = client;
    return 1;
}

/* Looks for the end of the request in what came. */
static void read_request(struct client *client, const char *text, size_t count)
{
    for (size_t at = 0; at < count && client->asked < ASKED; at++)
        client->asked = text[at] == BLANK_LINE[client->asked] ? client->asked + 1 : text[at] == '\r';
}

/* Reads the request, and sends as much of the response as has room. */
static void serve(struct client *client, uint64_t now)
{
    char text[2048];
    size_t count, taken;
    uint32_t answer;
    while ((answer = tcpcore_host_receive(&host, now, &client->id, text, sizeof text, &count)) == TCPCORE_DONE)
        read_request(client, text, count);
    if (client->asked == ASKED) {
        tcpcore_host_send(&host, now, &client->id, response + client->sent, response_length - client->sent, &taken);
        client->sent += taken;
    }
    if (client->sent == response_length || (client->asked < ASKED && answer == TCPCORE_END_OF_STREAM))
        tcpcore_host_close(&host, now, &client->id);
}

/* A segment has come to its client, who is served. */
static void hear(struct client *client, uint64_t now)
{
    struct tcpcore_host_id id;
    client->heard = now;
    while (tcpcore_host_accept(&host, &listener, &id) == TCPCORE_DONE)
        by_slot[id.slot]->is_open = 1;
    serve(client, now);
}

/* A segment has come: it is a client's, asks for a connection, or is answered by a reset. */
static void arrive(const struct ip_packet *packet, uint64_t now)
{
    struct tcpcore_host_arrived arrived;
    struct tcpcore_arrive_report report;
    unsigned char reset[TCPCORE_RESET_ROOM];
    size_t length;
    uint32_t answer;
    do {
        answer = tcpcore_host_arrive(&host, now, packet->src, packet->dst, packet->segment, packet->length, &arrived, &report);
        if (answer == TCPCORE_EMIT_FIRST)
            emit(now);
    } while (answer == TCPCORE_EMIT_FIRST ||
             ((arrived.place == TCPCORE_PLACE_LISTENER || arrived.place == TCPCORE_PLACE_FULL) &&
              admit(packet, arrived.place == TCPCORE_PLACE_FULL, now)));
    if (arrived.place == TCPCORE_PLACE_END)
        hear(by_slot[arrived.id.slot], now);
    if (arrived.place == TCPCORE_PLACE_STRAY && tcpcore_host_stray(&host, now, packet->src, packet->dst, packet->segment, packet->length,
                                                                   reset, sizeof reset, &length) == TCPCORE_DONE)
        send_segment(reset, length, packet->src);
    if (report.at_once)
        emit(now);
}

/* Takes what came, at most a batch, so that the clients are answered in between. */
static void read_device(uint64_t now)
{
    static uint8_t bytes[65535];
    struct ip_packet packet;
    ssize_t length;
    for (int count = 0; count < BATCH && (length = read(device, bytes, sizeof bytes)) > 0; count++)
        if (ip_read(own, bytes, (size_t)length, &packet) == IP_DONE)
            arrive(&packet, now);
}

/* Times run out: those of TCP, and ours with clients that are silent. */
static void run_times(uint64_t now)
{
    struct tcpcore_host_told told;
    while (tcpcore_host_timeout(&host, now, &told) == TCPCORE_DONE)
        records -= told.place == TCPCORE_PLACE_RECORD;
    for (struct client *client = clients; client < clients + CLIENTS; client++)
        if (client->is_used && client->is_open && now - client->heard > PATIENCE)
            tcpcore_host_abort(&host, now, &client->id);
}

/* For so many milliseconds there is nothing to do but wait, a second at most. */
static int quiet_for(uint64_t now)
{
    uint64_t at;
    tcpcore_host_poll_at(&host, &at);
    return at <= now ? 0 : at - now < SECOND ? (int)((at - now) / 1000 + 1) : 1000;
}

/* Makes the response of a file. Whether it could be read. */
static int load(const char *name)
{
    FILE *file = fopen(name, "rb");
    if (!file)
        return 0;
    size_t size = fread(response + HEAD, 1, LARGEST_FILE, file);
    int is_whole = !ferror(file) && fgetc(file) == EOF;
    fclose(file);
    int head = snprintf(response, HEAD, "HTTP/1.0 200 OK\r\nContent-Length: %zu\r\n\r\n", size);
    memmove(response + head, response + HEAD, size);
    response_length = (size_t)head + size;
    return is_whole;
}

static int open_device(const char *name)
{
    struct ifreq request = {.ifr_flags = IFF_TUN | IFF_NO_PI};
    snprintf(request.ifr_name, sizeof request.ifr_name, "%s", name);
    device = open("/dev/net/tun", O_RDWR | O_NONBLOCK | O_CLOEXEC);
    return device >= 0 && ioctl(device, TUNSETIFF, &request) == 0;
}

/* Sets all from the program's words. Whether that could be done. The response goes out in pieces as it has room, so that the Nagle
   algorithm would only keep the last one back. */
static int set_up(char **words)
{
    uint8_t *byte = own.addr.byte;
    if (sscanf(words[2], "%hhu.%hhu.%hhu.%hhu/%hhu", byte, byte + 1, byte + 2, byte + 3, &own.prefix) != 5)
        return 0;
    config.addr = own.addr;
    config.port = (uint16_t)strtoul(words[3], NULL, 10);
    config.send_capacity = SEND;
    config.recv_capacity = RECEIVE;
    rules.time_wait = TIME_WAIT;
    policy.nagle = 0;
    return open_device(words[1]) && getentropy(secret, sizeof secret) == 0 &&
           tcpcore_host_new(&host, TIME_WAIT, STRAY_INTERVAL, tables, sizeof tables) == TCPCORE_DONE &&
           tcpcore_host_listen(&host, own.addr, config.port, BACKLOG, &listener) == TCPCORE_DONE;
}

int main(int count, char **words)
{
    if (count != 5 || !load(words[4]) || !set_up(words))
        return fputs("usage: tun_http DEVICE ADDRESS/PREFIX PORT FILE, as root, FILE of at most a megabyte\n", stderr), 1;
    puts("ready");
    fflush(stdout);
    for (;;) {
        struct pollfd readable = {.fd = device, .events = POLLIN};
        poll(&readable, 1, quiet_for(microseconds()));
        uint64_t now = microseconds();
        read_device(now);
        run_times(now);
        emit(now);
    }
}
