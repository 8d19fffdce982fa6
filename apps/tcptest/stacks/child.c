/* The program around a stack (see child.h). */
#define _GNU_SOURCE
#include "child.h"

#include <errno.h>
#include <fcntl.h>
#include <linux/if_tun.h>
#include <net/if.h>
#include <poll.h>
#include <stdio.h>
#include <stdlib.h>
#include <string.h>
#include <sys/ioctl.h>
#include <sys/socket.h>
#include <sys/un.h>
#include <time.h>
#include <unistd.h>

enum { PACKET = 65536, LINE = 1 << 17, TEXT = 1 << 14, WORDS = 8, TICK = 5 };

uint64_t now = 1000000;
static int wire, control, is_device;

void child_leave(const void *packet, size_t length)
{
    if (write(wire, packet, length) < 0 && errno != EAGAIN)
        perror("child: a packet is lost");
}

/* Hands over what came. */
static void read_wire(void)
{
    static uint8_t packet[PACKET];
    ssize_t length;
    while ((length = is_device ? read(wire, packet, sizeof packet) : recv(wire, packet, sizeof packet, MSG_DONTWAIT)) > 0)
        stack_arrive(packet, (size_t)length);
}

/* Of words such as capacity=4096. */
static struct wishes wishes_of(int count, char **words)
{
    struct wishes wishes = {.nagle = -1, .ttl = -1, .service = -1, .is_known = 1};
    for (int at = 0; at < count; at++) {
        int found = sscanf(words[at], "capacity=%u", &wishes.capacity) == 1 || sscanf(words[at], "nagle=%d", &wishes.nagle) == 1 ||
                    sscanf(words[at], "ttl=%d", &wishes.ttl) == 1 || sscanf(words[at], "service=%d", &wishes.service) == 1;
        if (sscanf(words[at], "keep=%u,%u", &wishes.idle, &wishes.interval) == 2)
            found = wishes.keeps = 1;
        wishes.is_known &= found;
    }
    return wishes;
}

static size_t bytes_of(const char *digits, uint8_t *out)
{
    size_t count = 0;
    unsigned byte;
    while (count < TEXT && sscanf(digits + 2 * count, "%2x", &byte) == 1)
        out[count++] = (uint8_t)byte;
    return count;
}

static void say(char *answer, const char *words) { snprintf(answer, LINE, "%s", words); }

static const char *gone_of(long answer) { return answer == STACK_TIMED_OUT ? "gone timeout" : "gone reset"; }

static void receive(int handle, size_t room, char *answer)
{
    static uint8_t text[TEXT];
    long count = stack_receive(handle, text, room < TEXT ? room : TEXT);
    if (count == STACK_NOTHING || count == STACK_ENDED || count < 0) {
        say(answer, count == STACK_NOTHING ? "nothing" : count == STACK_ENDED ? "end" : gone_of(count));
        return;
    }
    say(answer, "text ");
    for (long at = 0; at < count; at++)
        snprintf(answer + 5 + 2 * at, 3, "%02x", text[at]);
}

static void send_text(int handle, const char *digits, char *answer)
{
    static uint8_t text[TEXT];
    long count = stack_send(handle, text, bytes_of(digits, text));
    if (count < 0 && count != STACK_NOTHING)
        say(answer, gone_of(count));
    else
        snprintf(answer, LINE, "ok %ld", count < 0 ? 0 : count);
}

static void handle_of(int handle, char *answer)
{
    if (handle < 0)
        say(answer, handle == STACK_UNKNOWN ? "unknown" : "no");
    else
        snprintf(answer, LINE, "ok %d", handle);
}

static void connect_to(int count, char **words, char *answer)
{
    uint8_t to[4] = {0};
    struct wishes wishes = wishes_of(count - 4, words + 4);
    sscanf(words[2], "%hhu.%hhu.%hhu.%hhu", to, to + 1, to + 2, to + 3);
    if (!wishes.is_known)
        say(answer, "unknown");
    else
        handle_of(stack_connect((uint16_t)atoi(words[1]), to, (uint16_t)atoi(words[3]), &wishes), answer);
}

/* Time passes. */
static void run(uint64_t span)
{
    while (!is_device && span > 0) {
        uint64_t step = span < stack_step ? span : stack_step;
        now += step;
        span -= step;
        stack_turn();
    }
}

/* A user's call, of `count` words. */
static void call(int count, char **words, char *answer)
{
    const char *name = words[0];
    int first = count > 1 ? atoi(words[1]) : 0;
    struct wishes wishes = wishes_of(count > 2 ? count - 2 : 0, words + 2);
    say(answer, "ok");
    if (strcmp(name, "run") == 0)
        run((uint64_t)first);
    else if (strcmp(name, "listen") == 0)
        say(answer, wishes.is_known && stack_listen((uint16_t)first, &wishes) ? "ok" : "unknown");
    else if (strcmp(name, "connect") == 0 && count >= 4)
        connect_to(count, words, answer);
    else if (strcmp(name, "accept") == 0)
        handle_of(stack_accept((uint16_t)first), answer);
    else if (strcmp(name, "send") == 0 && count == 3)
        send_text(first, words[2], answer);
    else if (strcmp(name, "receive") == 0 && count == 3)
        receive(first, strtoul(words[2], NULL, 10), answer);
    else if (strcmp(name, "open") == 0)
        snprintf(answer, LINE, "ok %d", stack_is_open(first));
    else if (strcmp(name, "close") == 0)
        stack_close(first);
    else if (strcmp(name, "leave") == 0)
        stack_leave(first);
    else if (strcmp(name, "abort") == 0)
        stack_abort(first);
    else if (strcmp(name, "forget") == 0)
        stack_begin();
    else if (strcmp(name, "wish") != 0 || !wishes.is_known || !stack_wish(first, &wishes))
        say(answer, "unknown");
}

/* Answers a line. 0 once there are no more. */
static int answer_line(void)
{
    static char line[LINE], answer[LINE];
    char *words[WORDS] = {line}, *rest = line;
    int count = 0;
    ssize_t length = recv(control, line, sizeof line - 1, 0);
    if (length <= 0)
        return 0;
    line[length] = 0;
    while (count < WORDS && (words[count] = strtok_r(rest, " \n", &rest)))
        count++;
    read_wire();
    stack_turn();
    if (count > 0)
        call(count, words, answer);
    stack_turn();
    return send(control, answer, strlen(answer), MSG_NOSIGNAL) >= 0;
}

static uint64_t milliseconds(void)
{
    struct timespec at;
    clock_gettime(CLOCK_MONOTONIC, &at);
    return (uint64_t)at.tv_sec * 1000 + (uint64_t)at.tv_nsec / 1000000;
}

/* Opens the device, and waits for the tester at the socket. */
static int attach(const char *device, const char *path)
{
    struct ifreq request = {.ifr_flags = IFF_TUN | IFF_NO_PI};
    struct sockaddr_un at = {.sun_family = AF_UNIX};
    int listener = socket(AF_UNIX, SOCK_SEQPACKET | SOCK_CLOEXEC, 0);
    snprintf(request.ifr_name, sizeof request.ifr_name, "%s", device);
    snprintf(at.sun_path, sizeof at.sun_path, "%s", path);
    wire = open("/dev/net/tun", O_RDWR | O_NONBLOCK | O_CLOEXEC);
    is_device = 1;
    if (wire < 0 || ioctl(wire, TUNSETIFF, &request) < 0 || bind(listener, (struct sockaddr *)&at, sizeof at) < 0 || listen(listener, 1) < 0)
        return 0;
    puts("ready");
    fflush(stdout);
    return (control = accept(listener, NULL, NULL)) >= 0;
}

int main(int count, char **words)
{
    if (count == 4 && strcmp(words[1], "--tun") == 0) {
        if (!attach(words[2], words[3]))
            return perror("child"), 2;
    } else if (count == 3) {
        wire = atoi(words[1]);
        control = atoi(words[2]);
    } else {
        return fputs("usage: PROGRAM WIRE CONTROL, two sockets' numbers, or PROGRAM --tun DEVICE PATH\n", stderr), 2;
    }
    stack_begin();
    for (;;) {
        struct pollfd both[2] = {{.fd = control, .events = POLLIN}, {.fd = wire, .events = POLLIN}};
        poll(both, is_device ? 2 : 1, is_device ? TICK : -1);
        now = is_device ? milliseconds() : now;
        if (both[0].revents && !answer_line())
            return 0;
        if (is_device) {
            read_wire();
            stack_turn();
        }
    }
}
