/*
 * An example of a host: an echo server over a TUN device of Linux. Each of many peers is sent what it sent.
 *     host_echo DEVICE ADDRESS/PREFIX PORT [LEAST GREATEST HANDSHAKE USER [DROP [CAPACITY]]]
 * Once it prints "ready" the link and the other side's address can be set. On SIGTERM it waits until its connections are over, and prints
 * what it has counted. LEAST and GREATEST bound the retransmission timeout, HANDSHAKE and USER are the limits of a SYN,ACK and of all else
 * (milliseconds), DROP is the percentage lost each way, CAPACITY that of each buffer in bytes.
 */
#define _GNU_SOURCE
#include "ip.h"
#include "secret.h"
#include "tcpcore.h"

#include <fcntl.h>
#include <linux/if_tun.h>
#include <net/if.h>
#include <poll.h>
#include <signal.h>
#include <stdio.h>
#include <stdlib.h>
#include <string.h>
#include <sys/ioctl.h>
#include <time.h>
#include <unistd.h>

#ifndef TCPCORE_HAS_HOSTS
#error "there are no hosts here, only in machine code: see HOSTS in tcpcore.h"
#endif

enum { CAPACITY = 65536, SHIFT = 5, CLIENTS = 512, BACKLOG = 256, RECORDS = 1024, BATCH = 64, STRAY_INTERVAL = 1000, MILLISECOND = 1000 };

struct client {
    struct tcpcore_host_id id;
    int is_used, is_open;
    uint64_t sent; /* the position behind all that was sent */
    unsigned char recovery[TCPCORE_RECOVERY_MEMORY];
};

static tcpcore_host host;
static struct tcpcore_host_id listener;
static struct client clients[CLIENTS], *by_slot[CLIENTS];
static unsigned char tables[TCPCORE_HOST_MEMORY(CLIENTS, RECORDS, 1, BACKLOG)];
static unsigned char memory[CLIENTS * TCPCORE_CONNECTION_MEMORY(CAPACITY, CAPACITY)];
static size_t room, places; /* what a connection takes of it, and how many have room */
static size_t records;      /* of those in TIME-WAIT: the tables have room for RECORDS */
static tcpcore_config config = TCPCORE_CONFIG_DEFAULT;
static struct tcpcore_connection_rules rules = TCPCORE_CONNECTION_RULES_DEFAULT;
static struct tcpcore_policy policy = TCPCORE_POLICY_DEFAULT;

static int device;
static struct ip_net own;
static uint8_t secret[16];
static uint32_t drop, lots; /* percent, and what chooses */
static volatile sig_atomic_t stops;

/* What it has counted. */
static uint64_t arrived, malformed, emitted, resent, accepted, recycled, full, strays, orderly, abandoned, used;

static void stop(int signal) { stops = signal; }

static uint64_t microseconds(void)
{
    struct timespec time;
    clock_gettime(CLOCK_MONOTONIC, &time);
    return (uint64_t)time.tv_sec * 1000000 + (uint64_t)time.tv_nsec / 1000;
}

static int is_lost(void)
{
    lots = lots * 1664525 + 1013904223;
    return (lots >> 16) % 1000 < 10 * drop;
}

static void send_segment(const void *segment, size_t length, tcpcore_addr to)
{
    unsigned char packet[IP_HEADER + TCPCORE_EMIT_ROOM];
    size_t total = ip_write(packet, own.addr, to, length);
    memcpy(packet + IP_HEADER, segment, length);
    if (!is_lost() && write(device, packet, total) < 0)
        return; /* what the device can't take is lost, and sent again */
}

/* Its connection leaves the host without a trace, and it its place. */
static void leave(struct client *client)
{
    tcpcore_connection connection = TCPCORE_CONNECTION_INIT;
    tcpcore_host_remove(&host, &client->id, &connection);
    tcpcore_connection_free(&connection);
    client->is_used = 0;
    used--;
}

/* A client that has nothing to send leaves if it is done, in TIME-WAIT behind a record. One that still listens was none: its SYN had a
   fault. */
static void settle(struct client *client)
{
    tcpcore_connection connection = TCPCORE_CONNECTION_INIT;
    struct tcpcore_status status;
    if (tcpcore_host_status(&host, &client->id, &status) != TCPCORE_DONE)
        return;
    uint32_t answer = records < RECORDS ? tcpcore_host_retire(&host, &client->id, &connection) : TCPCORE_NO_MEMORY;
    records += answer == TCPCORE_DONE;
    orderly += answer == TCPCORE_DONE || status.ending == TCPCORE_ENDING_ORDERLY;
    if (answer == TCPCORE_DONE) {
        tcpcore_connection_free(&connection);
        client->is_used = 0;
        used--;
    } else if (status.phase == TCPCORE_PHASE_CLOSED || status.phase == TCPCORE_PHASE_LISTEN) {
        leave(client);
    }
}

/* Sends all that may go out. */
static void emit(uint64_t now)
{
    unsigned char segment[TCPCORE_EMIT_ROOM];
    struct tcpcore_host_sent sent;
    uint32_t answer;
    while ((answer = tcpcore_host_emit(&host, now, UINT64_MAX, segment, sizeof segment, &sent)) != TCPCORE_NOBODY) {
        struct client *client = sent.place == TCPCORE_PLACE_END ? by_slot[sent.id.slot] : NULL;
        if (answer == TCPCORE_NOT_DUE && client)
            settle(client);
        if (answer != TCPCORE_DONE)
            continue;
        send_segment(segment, (size_t)sent.length, sent.to);
        emitted++;
        if (client && sent.count > 0) {
            resent += sent.position < client->sent;
            client->sent = sent.position + sent.count > client->sent ? sent.position + sent.count : client->sent;
        }
    }
}

/* A place for one client more. Where all are taken, or the backlog is full, the oldest handshake makes way (RFC 4987, 3.4); NULL where
   there is none. */
static struct client *free_place(int is_full)
{
    struct client *oldest = NULL;
    for (struct client *client = clients; client < clients + places; client++) {
        if (!client->is_used && !is_full)
            return client;
        if (client->is_used && !client->is_open && (!oldest || client->id.number < oldest->id.number))
            oldest = client;
    }
    if (oldest) {
        leave(oldest);
        recycled++;
    }
    return oldest;
}

/* A connection for a client that asks for one. Whether there is one. */
static int admit(const struct ip_packet *packet, int is_full, uint64_t now)
{
    struct client *client = free_place(is_full);
    tcpcore_connection connection = TCPCORE_CONNECTION_INIT;
    uint16_t port = (uint16_t)(packet->segment[0] << 8 | packet->segment[1]);
    if (!client) {
        full++;
        return 0;
    }
    config.isn = secret_isn(secret, own.addr, config.port, packet->src, port, now);
    tcpcore_connection_listen(&connection, &config, &rules, now, memory + room * (size_t)(client - clients), room);
    tcpcore_connection_set_congestion(&connection, TCPCORE_CONGESTION_CUBIC);
    tcpcore_connection_set_recovery(&connection, now, client->recovery, sizeof client->recovery);
    tcpcore_connection_set_policy(&connection, &policy);
    if (tcpcore_host_admit(&host, &listener, &connection, packet->src, packet->dst, packet->segment, packet->length, &client->id) !=
        TCPCORE_DONE) {
        tcpcore_connection_free(&connection);
        return 0;
    }
    client->is_used = 1, client->is_open = 0, client->sent = 0;
    by_slot[client->id.slot] = client;
    used++;
    return 1;
}

/* Sends back what came, as far as there is room; behind the last of it closes. */
static void echo(const struct client *client, uint64_t now)
{
    static unsigned char text[CAPACITY];
    struct tcpcore_status status;
    uint32_t answer = TCPCORE_DONE;
    while (answer == TCPCORE_DONE) {
        size_t count;
        if (tcpcore_host_status(&host, &client->id, &status) != TCPCORE_DONE || status.room == 0)
            return;
        count = status.room < sizeof text ? (size_t)status.room : sizeof text;
        answer = tcpcore_host_receive(&host, now, &client->id, text, count, &count);
        if (answer == TCPCORE_DONE)
            tcpcore_host_send(&host, now, &client->id, text, count, &count);
    }
    if (answer == TCPCORE_END_OF_STREAM && !status.closing)
        tcpcore_host_close(&host, now, &client->id);
}

/* Those whose handshake is over are their users' own. */
static void accept_all(void)
{
    struct tcpcore_host_id id;
    while (tcpcore_host_accept(&host, &listener, &id) == TCPCORE_DONE) {
        by_slot[id.slot]->is_open = 1;
        accepted++;
    }
}

/* A segment that is nobody's may be answered by a reset. */
static void refuse(const struct ip_packet *packet, uint64_t now)
{
    unsigned char reset[TCPCORE_RESET_ROOM];
    size_t length;
    if (tcpcore_host_stray(&host, now, packet->src, packet->dst, packet->segment, packet->length, reset, sizeof reset, &length) !=
        TCPCORE_DONE)
        return;
    send_segment(reset, length, packet->src);
    strays++;
}

static void arrive(const struct ip_packet *packet, uint64_t now)
{
    struct tcpcore_host_arrived at;
    struct tcpcore_arrive_report report;
    uint32_t answer;
    arrived++;
    do {
        answer = tcpcore_host_arrive(&host, now, packet->src, packet->dst, packet->segment, packet->length, &at, &report);
        if (answer == TCPCORE_EMIT_FIRST)
            emit(now);
    } while (answer == TCPCORE_EMIT_FIRST || ((at.place == TCPCORE_PLACE_LISTENER || at.place == TCPCORE_PLACE_FULL) &&
                                              admit(packet, at.place == TCPCORE_PLACE_FULL, now)));
    malformed += at.place == TCPCORE_PLACE_NONE || (answer >= TCPCORE_TOO_SHORT && answer <= TCPCORE_BAD_PADDING);
    if (at.place == TCPCORE_PLACE_STRAY)
        refuse(packet, now);
    if (at.place == TCPCORE_PLACE_END) {
        accept_all();
        echo(by_slot[at.id.slot], now);
    }
    if (report.at_once)
        emit(now);
}

/* Reads what came, at most a batch, so that the clients are answered in between. */
static void read_device(uint64_t now)
{
    static uint8_t bytes[65535];
    struct ip_packet packet;
    ssize_t length;
    for (int count = 0; count < BATCH && (length = read(device, bytes, sizeof bytes)) > 0; count++)
        if (ip_read(own, bytes, (size_t)length, &packet) == IP_DONE && !is_lost())
            arrive(&packet, now);
}

static void run_times(uint64_t now)
{
    struct tcpcore_host_told told;
    while (tcpcore_host_timeout(&host, now, &told) == TCPCORE_DONE) {
        abandoned += told.timer == TCPCORE_TIMER_USER;
        records -= told.place == TCPCORE_PLACE_RECORD;
    }
}

/* For so many milliseconds there is nothing to do but wait, 100 at most: a signal may come just before. */
static int quiet_for(uint64_t now)
{
    uint64_t at;
    tcpcore_host_poll_at(&host, &at);
    uint64_t left = at > now ? (at - now + MILLISECOND - 1) / MILLISECOND : 0;
    return left < 100 ? (int)left : 100;
}

static void report_counts(void)
{
    const struct { const char *name; uint64_t value; } rows[] = {
        {"arrived", arrived}, {"malformed", malformed}, {"emitted", emitted}, {"resent", resent}, {"accepted", accepted},
        {"recycled", recycled}, {"full", full}, {"strays", strays}, {"orderly", orderly}, {"abandoned", abandoned}, {"used", used}};
    for (size_t at = 0; at < sizeof rows / sizeof *rows; at++)
        printf("%s %llu\n", rows[at].name, (unsigned long long)rows[at].value);
}

static int open_device(const char *name)
{
    struct ifreq request = {.ifr_flags = IFF_TUN | IFF_NO_PI};
    snprintf(request.ifr_name, sizeof request.ifr_name, "%s", name);
    device = open("/dev/net/tun", O_RDWR | O_NONBLOCK);
    return device >= 0 && ioctl(device, TUNSETIFF, &request) == 0;
}

/* Sets all from the program's words; whether that could be done. What comes back is sent as it comes, without waiting for more of it. */
static int set_up(int count, char **words)
{
    uint64_t capacity = CAPACITY, percent = 0, *times[] = {&rules.least, &rules.greatest, &rules.handshake, &rules.user};
    uint8_t *byte = own.addr.byte;
    if (count < 4 || count > 10 ||
        sscanf(words[2], "%hhu.%hhu.%hhu.%hhu/%hhu", byte, byte + 1, byte + 2, byte + 3, &own.prefix) != 5)
        return 0;
    for (int at = 4; at < count; at++)
        *(at < 8 ? times[at - 4] : at == 8 ? &percent : &capacity) = strtoull(words[at], NULL, 10) * (at < 8 ? MILLISECOND : 1);
    rules.first = rules.first < rules.greatest ? rules.first : rules.greatest;
    rules.after_syn = rules.after_syn < rules.greatest ? rules.after_syn : rules.greatest;
    drop = (uint32_t)percent;
    config.addr = own.addr;
    config.port = (uint16_t)strtoul(words[3], NULL, 10);
    config.send_capacity = config.recv_capacity = capacity;
    config.window_shift = SHIFT, config.scales = 1;
    policy.nagle = 0;
    room = tcpcore_connection_room(&config);
    places = room == 0 ? 0 : sizeof memory / room < CLIENTS ? sizeof memory / room : CLIENTS;
    return places > 0 && open_device(words[1]) && getentropy(secret, sizeof secret) == 0 &&
           tcpcore_host_new(&host, rules.time_wait, STRAY_INTERVAL, tables, sizeof tables) == TCPCORE_DONE &&
           tcpcore_host_listen(&host, own.addr, config.port, BACKLOG, &listener) == TCPCORE_DONE;
}

int main(int count, char **words)
{
    if (!set_up(count, words))
        return fputs("host_echo: no device, or not: host_echo DEVICE ADDRESS/PREFIX PORT [NUMBER ..]\n", stderr), 1;
    sigaction(SIGTERM, &(struct sigaction){.sa_handler = stop}, NULL);
    puts("ready");
    fflush(stdout);
    while (!stops || used > 0) {
        struct pollfd readable = {.fd = device, .events = POLLIN};
        poll(&readable, 1, quiet_for(microseconds()));
        uint64_t now = microseconds();
        read_device(now);
        run_times(now);
        emit(now);
    }
    report_counts();
    tcpcore_host_free(&host);
    return 0;
}
