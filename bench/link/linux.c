/*
 * linux NAME=VALUE..: text to this machine's Linux over a link that is emulated here, in real time, from a connection (tcpcore.h) or from Linux
 * itself. Each Linux has a network namespace of its own, with a TUN device; what goes between the two passes through this program, which has
 * it wait, overtaken or lost as loss.c has it. It prints a line of numbers, in this order:
 *   seconds from the SYN to the last byte that was read;
 *   segments with text that were sent, and those of them that were sent again.
 * It fails where other bytes come than were sent. Times are in milliseconds, and parts in percent. NAME is
 * - ours (1: the sender is a connection; 0: Linux), congestion (1 Reno, 2 CUBIC), recovery (of a connection; 1: by time),
 *   pacing (of a connection; 1: its new text goes out in portions);
 * - rate (of the link each way, Mbit/s), trip (there and back without a load), queue (what would wait longer to leave is lost; 0: nothing is),
 *   jitter (each segment takes up to so much more, drawn for it alone), loss (of the segments each way);
 * - bytes, window (bytes of each of a connection's buffers), seed, stamps (1: Linux offers timestamps, as it does by itself).
 * It runs as root.
 */
#define _GNU_SOURCE
#include "link.h"
#include "tcpcore.h"

#include <arpa/inet.h>
#include <fcntl.h>
#include <linux/if_tun.h>
#include <net/if.h>
#include <netinet/tcp.h>
#include <poll.h>
#include <sched.h>
#include <stdio.h>
#include <stdlib.h>
#include <string.h>
#include <sys/ioctl.h>
#include <sys/prctl.h>
#include <sys/socket.h>
#include <time.h>
#include <unistd.h>

enum { OURS, CONGESTION, RECOVERY, PACING, RATE, TRIP, QUEUE, JITTER, LOSS, BYTES, WINDOW, SEED, STAMPS, WORDS };
enum { PORT = 2, MTU = 1500, IP_HEADER = 20, PROTOCOL = 9, TCP = 6 };

static struct {
    const char *name;
    double value;
} words[WORDS] = {[OURS] = {"ours", 1}, [CONGESTION] = {"congestion", 2}, [RECOVERY] = {"recovery", 1}, [PACING] = {"pacing", 0},
                  [RATE] = {"rate", 100}, [TRIP] = {"trip", 50}, [QUEUE] = {"queue", 0}, [JITTER] = {"jitter", 0}, [LOSS] = {"loss", 0},
                  [BYTES] = {"bytes", 5000000}, [WINDOW] = {"window", 1048576}, [SEED] = {"seed", 1}, [STAMPS] = {"stamps", 1}};

static double of(int word) { return words[word].value; }
static uint64_t time_of(int word) { return (uint64_t)(of(word) * (double)MILLISECOND); }

/* A side: Linux behind a TUN device, with its user in a process that tells the end of all by `user`; or the connection, -1 in both. */
static struct side {
    struct link link; /* the direction that leads to it */
    int device, user;
} sides[2];

static tcpcore_connection connection;
static const tcpcore_addr ADDRS[2] = {{{10, 0, 0, 1}}, {{10, 0, 0, 2}}};
static uint64_t total, given, highest, segments, again, next_call, began;

static uint64_t now(void)
{
    struct timespec at;
    clock_gettime(CLOCK_MONOTONIC, &at);
    return (uint64_t)at.tv_sec * 1000000000 + (uint64_t)at.tv_nsec;
}

static struct sockaddr_in at_port(int side, int port)
{
    struct sockaddr_in at = {.sin_family = AF_INET, .sin_port = htons((uint16_t)port)};
    memcpy(&at.sin_addr, ADDRS[side].byte, 4);
    return at;
}

/* The namespace of this process has the device, with the side's address, and its descriptor goes to the program. */
static void attach(int side, int to)
{
    struct ifreq request = {.ifr_flags = IFF_TUN | IFF_NO_PI};
    struct sockaddr_in own = at_port(side, 0), mask = {.sin_family = AF_INET, .sin_addr.s_addr = htonl(0xffffff00)};
    int device = open("/dev/net/tun", O_RDWR | O_NONBLOCK | O_CLOEXEC), any = socket(AF_INET, SOCK_DGRAM, 0);
    strcpy(request.ifr_name, "link0");
    if (device < 0 || ioctl(device, TUNSETIFF, &request) < 0)
        fail("no TUN device");
    memcpy(&request.ifr_addr, &own, sizeof own);
    int is_set = ioctl(any, SIOCSIFADDR, &request) == 0;
    memcpy(&request.ifr_netmask, &mask, sizeof mask);
    is_set &= ioctl(any, SIOCSIFNETMASK, &request) == 0;
    request.ifr_flags = IFF_UP | IFF_RUNNING;
    is_set &= ioctl(any, SIOCSIFFLAGS, &request) == 0;
    int stamps = open("/proc/sys/net/ipv4/tcp_timestamps", O_WRONLY);
    is_set &= write(stamps, of(STAMPS) != 0 ? "1" : "0", 1) == 1;
    char byte = 0, room[CMSG_SPACE(sizeof device)] = {0};
    struct iovec one = {&byte, 1};
    struct msghdr message = {.msg_iov = &one, .msg_iovlen = 1, .msg_control = room, .msg_controllen = sizeof room};
    struct cmsghdr *part = CMSG_FIRSTHDR(&message);
    *part = (struct cmsghdr){.cmsg_level = SOL_SOCKET, .cmsg_type = SCM_RIGHTS, .cmsg_len = CMSG_LEN(sizeof device)};
    memcpy(CMSG_DATA(part), &device, sizeof device);
    if (!is_set || sendmsg(to, &message, 0) != 1)
        fail("the TUN device isn't set up");
    close(any), close(stamps), close(device);
}

static void send_all(int to)
{
    const char *rule = of(CONGESTION) == TCPCORE_CONGESTION_CUBIC ? "cubic" : "reno";
    struct sockaddr_in peer = at_port(1, PORT);
    int own = socket(AF_INET, SOCK_STREAM, 0);
    if (setsockopt(own, IPPROTO_TCP, TCP_CONGESTION, rule, (socklen_t)strlen(rule)) < 0 || read(to, &(char){0}, 1) != 1 ||
        connect(own, (struct sockaddr *)&peer, sizeof peer) < 0)
        fail("Linux doesn't connect");
    for (uint64_t sent = 0; sent < total;) {
        size_t left = total - sent < CHUNK ? (size_t)(total - sent) : CHUNK;
        ssize_t count = write(own, text + sent % PERIOD, left);
        if (count <= 0)
            fail("Linux doesn't send");
        sent += (uint64_t)count;
    }
    pause();
}

static void receive_all(int to)
{
    static uint8_t bytes[CHUNK];
    struct sockaddr_in own = at_port(1, PORT);
    int listener = socket(AF_INET, SOCK_STREAM, 0);
    if (bind(listener, (struct sockaddr *)&own, sizeof own) < 0 || listen(listener, 1) < 0 || write(to, "", 1) != 1)
        fail("Linux doesn't listen");
    int from = accept(listener, NULL, NULL);
    for (uint64_t got = 0; got < total;) {
        ssize_t count = read(from, bytes, sizeof bytes);
        if (count <= 0 || memcmp(bytes, text + got % PERIOD, (size_t)count) != 0)
            fail("what came isn't what was sent");
        got += (uint64_t)count;
    }
    uint64_t ended = now();
    if (write(to, &ended, sizeof ended) != sizeof ended)
        fail("nobody is told");
    pause();
}

/* A Linux of its own, with its user. */
static void begin_linux(int side)
{
    int pair[2];
    char byte, room[CMSG_SPACE(sizeof(int))];
    struct iovec one = {&byte, 1};
    struct msghdr message = {.msg_iov = &one, .msg_iovlen = 1, .msg_control = room, .msg_controllen = sizeof room};
    if (socketpair(AF_UNIX, SOCK_STREAM, 0, pair) < 0)
        fail("no pair of sockets");
    if (fork() == 0) {
        close(pair[0]);
        prctl(PR_SET_PDEATHSIG, 9);
        if (unshare(CLONE_NEWNET) < 0)
            fail("no namespace: run as root");
        attach(side, pair[1]);
        side == 0 ? send_all(pair[1]) : receive_all(pair[1]);
    }
    close(pair[1]);
    if (recvmsg(pair[0], &message, 0) != 1)
        fail("no TUN device came");
    memcpy(&sides[side].device, CMSG_DATA(CMSG_FIRSTHDR(&message)), sizeof(int));
    sides[side].user = pair[0];
}

/* A packet leaves for the other side, once those before it have. */
static void carry(int from, const uint8_t *packet, size_t length)
{
    struct link *link = &sides[1 - from].link;
    size_t header = 4 * (size_t)(packet[0] & 15);
    if (packet[0] >> 4 != 4 || packet[PROTOCOL] != TCP)
        return;
    uint64_t time = now(), first, left = link->free_at > time ? link->free_at : time;
    size_t size = length - header - 4 * (size_t)(packet[header + 12] >> 4);
    if (from == 0) {
        static uint32_t isn;
        uint32_t seq = ntohl(*(const uint32_t *)(const void *)(packet + header + 4));
        if (began == 0)
            began = time, isn = seq;
        first = highest + (uint64_t)(int64_t)(int32_t)(seq - (isn + 1 + (uint32_t)highest));
        segments += size > 0;
        again += size > 0 && first < highest;
        highest = size > 0 && first + size > highest ? first + size : highest;
    }
    int is_lost = chance() * 100 < of(LOSS) || (of(QUEUE) > 0 && left - time > time_of(QUEUE));
    if (!is_lost || of(QUEUE) == 0)
        left = leave(link, time, length - IP_HEADER, of(RATE));
    if (!is_lost)
        push(link, left + time_of(TRIP) / 2 + (uint64_t)(chance() * (double)time_of(JITTER)), packet, length);
}

static void emit(void)
{
    uint8_t packet[IP_HEADER + TCPCORE_EMIT_ROOM];
    struct tcpcore_connection_segment segment;
    while (tcpcore_connection_emit(&connection, now() / 1000, UINT64_MAX, packet + IP_HEADER, TCPCORE_EMIT_ROOM, &segment) == TCPCORE_DONE) {
        size_t length = IP_HEADER + (size_t)segment.length;
        uint8_t header[IP_HEADER] = {0x45, 0, (uint8_t)(length >> 8), (uint8_t)length, 0, 0, 0x40, 0, 64, TCP, 0, 0, 10, 0, 0, 1, 10, 0, 0, 2};
        uint32_t sum = 0;
        for (int at = 0; at < IP_HEADER; at += 2)
            sum += (uint32_t)header[at] << 8 | header[at + 1];
        sum = ~((sum & 0xffff) + (sum >> 16));
        header[10] = (uint8_t)(sum >> 8), header[11] = (uint8_t)sum;
        memcpy(packet, header, IP_HEADER);
        carry(0, packet, length);
    }
}

/* One turn of the connection's loop, as tcpcore.h says. */
static void turn(void)
{
    uint32_t timer;
    size_t size = 1;
    while (given < total && size > 0) {
        size_t left = total - given < CHUNK ? (size_t)(total - given) : CHUNK;
        if (tcpcore_connection_send(&connection, now() / 1000, text + given % PERIOD, left, &size) != TCPCORE_DONE)
            break;
        given += size;
    }
    emit();
    while (tcpcore_connection_tick(&connection, now() / 1000, &timer, &next_call) == TCPCORE_DONE)
        emit();
}

static void arrives(int side, const struct packet *packet)
{
    struct tcpcore_arrive_report report;
    if (sides[side].device >= 0) {
        if (write(sides[side].device, packet->bytes, packet->length) < 0)
            fail("Linux takes no packet");
        return;
    }
    while (tcpcore_connection_arrive(&connection, now() / 1000, ADDRS[1], ADDRS[0], packet->bytes + IP_HEADER, packet->length - IP_HEADER,
                                     &report) == TCPCORE_EMIT_FIRST)
        emit();
    turn();
}

static void begin_connection(void)
{
    uint64_t window = (uint64_t)of(WINDOW);
    tcpcore_config config = {.addr = ADDRS[0], .port = 1, .mss = MTU - 40, .isn = ISN, .send_capacity = window, .recv_capacity = window,
                             .limit = TCPCORE_LIMIT, .window_shift = TCPCORE_LEAST_SHIFT(window), .scales = 1, .sack = 1};
    struct tcpcore_connection_rules rules = TCPCORE_CONNECTION_RULES_DEFAULT;
    struct tcpcore_policy policy = TCPCORE_POLICY_DEFAULT;
    size_t room = tcpcore_connection_room(&config);
    void *block = malloc(room), *recovery = malloc(TCPCORE_RECOVERY_MEMORY);
    sides[0].device = sides[0].user = -1;
    if (!block || !recovery || tcpcore_connection_connect(&connection, &config, &rules, ADDRS[1], PORT, now() / 1000, block, room) ||
        tcpcore_connection_set_congestion(&connection, (uint32_t)of(CONGESTION)) || tcpcore_connection_set_policy(&connection, &policy))
        fail("no connection");
    if (of(RECOVERY) != 0 && tcpcore_connection_set_recovery(&connection, now() / 1000, recovery, TCPCORE_RECOVERY_MEMORY))
        fail("no recovery");
    if (of(PACING) != 0 && tcpcore_connection_set_pacing(&connection, 1))
        fail("no pacing");
}

/* Until something comes, a packet arrives, or the connection is due. */
static void wait_for_more(void)
{
    struct pollfd any[3] = {{sides[0].device, POLLIN, 0}, {sides[1].device, POLLIN, 0}, {sides[1].user, POLLIN, 0}};
    uint64_t time = now(), next = of(OURS) != 0 && next_call < UINT64_MAX / 1000 ? next_call * 1000 : UINT64_MAX;
    for (int side = 0; side < 2; side++)
        next = next_arrival(&sides[side].link) < next ? next_arrival(&sides[side].link) : next;
    next = next > time + HOUR ? HOUR : next > time ? next - time : 0;
    struct timespec wait = {(time_t)(next / 1000000000), (long)(next % 1000000000)};
    ppoll(any, 3, &wait, NULL);
}

static void set(const char *word)
{
    const char *value = strchr(word, '=');
    int at = 0;
    while (value && at < WORDS && (strlen(words[at].name) != (size_t)(value - word) || strncmp(words[at].name, word, (size_t)(value - word)) != 0))
        at++;
    if (!value || at == WORDS)
        fail("wants NAME=VALUE.., with a name that is told at the beginning of linux.c");
    words[at].value = strtod(value + 1, NULL);
}

int main(int count_of_words, char **word)
{
    static uint8_t packet[1 << 16];
    uint64_t ended = 0;
    for (int at = 1; at < count_of_words; at++)
        set(word[at]);
    begin((uint64_t)of(SEED));
    total = (uint64_t)of(BYTES);
    prctl(PR_SET_TIMERSLACK, 1);
    begin_linux(1);
    if (read(sides[1].user, &(char){0}, 1) != 1)
        fail("Linux doesn't listen");
    if (of(OURS) != 0) {
        begin_connection();
        turn();
    } else {
        begin_linux(0);
        if (write(sides[0].user, "", 1) != 1)
            fail("Linux doesn't begin");
    }
    for (ssize_t told; (told = recv(sides[1].user, &ended, sizeof ended, MSG_DONTWAIT)) != sizeof ended;) {
        if (told >= 0 || (sides[0].user >= 0 && recv(sides[0].user, &(char){0}, 1, MSG_DONTWAIT | MSG_PEEK) == 0))
            fail("a Linux has ended");
        for (int side = 0; side < 2; side++) {
            ssize_t length;
            while (sides[side].device >= 0 && (length = read(sides[side].device, packet, sizeof packet)) > 0)
                carry(side, packet, (size_t)length);
        }
        for (int side = 0; side < 2; side++)
            while (next_arrival(&sides[side].link) <= now()) {
                struct packet *first = pop(&sides[side].link);
                arrives(side, first);
                free(first);
            }
        if (of(OURS) != 0 && next_call <= now() / 1000)
            turn();
        wait_for_more();
    }
    printf("%.4f %llu %llu\n", (double)(ended - began) / 1e9, (unsigned long long)segments, (unsigned long long)again);
    return 0;
}
