/*
 * A server and a client for bench/usernet.sh:
 *     traffic serve PORT               sends back what comes, and prints "ready"
 *     traffic connect HOST PORT COUNT  COUNT connections in turn by each of 8 processes, one byte there and back: prints
 *                                      connections a second, and one process's median microseconds to connect, and to
 *                                      the byte
 *     traffic hold HOST PORT COUNT     holds COUNT connections that have sent a byte, until it is killed
 */
#define _GNU_SOURCE
#include <arpa/inet.h>
#include <stdio.h>
#include <stdlib.h>
#include <string.h>
#include <sys/epoll.h>
#include <sys/resource.h>
#include <sys/socket.h>
#include <sys/wait.h>
#include <time.h>
#include <unistd.h>

enum { PROCESSES = 8, EVENTS = 256 };

static double seconds(void)
{
    struct timespec time;
    clock_gettime(CLOCK_MONOTONIC, &time);
    return (double)time.tv_sec + 1e-9 * (double)time.tv_nsec;
}

static struct sockaddr_in place(const char *host, const char *port)
{
    struct sockaddr_in at = {.sin_family = AF_INET, .sin_port = htons((uint16_t)atoi(port))};
    inet_pton(AF_INET, host, &at.sin_addr);
    return at;
}

static void fail(const char *what)
{
    perror(what);
    exit(1);
}

static void serve(const char *port)
{
    struct sockaddr_in at = place("127.0.0.1", port);
    int one = 1, listener = socket(AF_INET, SOCK_STREAM, 0), poll = epoll_create1(0);
    struct epoll_event event = {.events = EPOLLIN, .data.fd = listener}, events[EVENTS];
    char bytes[65536];
    setsockopt(listener, SOL_SOCKET, SO_REUSEADDR, &one, sizeof one);
    if (bind(listener, (struct sockaddr *)&at, sizeof at) != 0 || listen(listener, 4096) != 0)
        fail("listen");
    epoll_ctl(poll, EPOLL_CTL_ADD, listener, &event);
    puts("ready");
    fflush(stdout);
    for (;;) {
        int count = epoll_wait(poll, events, EVENTS, -1);
        for (int at_event = 0; at_event < count; at_event++) {
            int end = events[at_event].data.fd;
            if (end == listener) {
                event.data.fd = accept(listener, NULL, NULL);
                epoll_ctl(poll, EPOLL_CTL_ADD, event.data.fd, &event);
                continue;
            }
            ssize_t length = read(end, bytes, sizeof bytes);
            if (length <= 0 || write(end, bytes, (size_t)length) != length)
                close(end);
        }
    }
}

/* A connection that sent a byte and had it back; the times of both. */
static int open_one(const struct sockaddr_in *to, double *connected, double *answered)
{
    char byte = 'x';
    double began = seconds();
    int end = socket(AF_INET, SOCK_STREAM, 0);
    if (end < 0 || connect(end, (const struct sockaddr *)to, sizeof *to) != 0)
        fail("connect");
    *connected = seconds() - began;
    if (write(end, &byte, 1) != 1 || read(end, &byte, 1) != 1)
        fail("echo");
    *answered = seconds() - began;
    return end;
}

static int compare(const void *a, const void *b)
{
    double x = *(const double *)a, y = *(const double *)b;
    return (x > y) - (x < y);
}

static void connect_in_turn(const struct sockaddr_in *to, size_t count)
{
    double *connected = calloc(count, sizeof *connected), *answered = calloc(count, sizeof *answered), began = seconds();
    int is_first = 1;
    for (int process = 1; process < PROCESSES && is_first; process++)
        is_first = fork() > 0;
    for (size_t at = 0; at < count; at++)
        close(open_one(to, &connected[at], &answered[at]));
    if (!is_first)
        exit(0);
    while (wait(NULL) > 0)
        continue;
    double rate = (double)(PROCESSES * count) / (seconds() - began);
    qsort(connected, count, sizeof *connected, compare);
    qsort(answered, count, sizeof *answered, compare);
    printf("%f %f %f\n", rate, 1e6 * connected[count / 2], 1e6 * answered[count / 2]);
}

int main(int count, char **words)
{
    struct rlimit files;
    double connected, answered;
    getrlimit(RLIMIT_NOFILE, &files);
    files.rlim_cur = files.rlim_max;
    setrlimit(RLIMIT_NOFILE, &files);
    if (count == 3 && strcmp(words[1], "serve") == 0)
        serve(words[2]);
    if (count != 5)
        return 1;
    struct sockaddr_in to = place(words[2], words[3]);
    if (strcmp(words[1], "connect") == 0) {
        connect_in_turn(&to, (size_t)atol(words[4]));
        return 0;
    }
    for (long at = 0; at < atol(words[4]); at++)
        open_one(&to, &connected, &answered);
    pause();
}
