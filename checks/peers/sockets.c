/* The peer's user behind a socket (see sockets.h). */
#define _DEFAULT_SOURCE
#include "sockets.h"
#include "peer.h"

#include <errno.h>
#include <fcntl.h>
#include <netinet/tcp.h>
#include <signal.h>
#include <stdio.h>
#include <stdlib.h>
#include <sys/socket.h>
#include <unistd.h>

static int listener = -1, user = -1;
static int is_open, has_ended, has_failed;

/* A socket that doesn't block, at this address. */
static int made(struct sockaddr_in at, int room)
{
    int fd = socket(AF_INET, SOCK_STREAM | SOCK_NONBLOCK | SOCK_CLOEXEC, 0), one = 1;
    setsockopt(fd, SOL_SOCKET, SO_REUSEADDR, &one, sizeof one);
    setsockopt(fd, IPPROTO_TCP, TCP_NODELAY, &one, sizeof one);
    if (room > 0)
        setsockopt(fd, SOL_SOCKET, SO_RCVBUF, &room, sizeof room);
    if (fd < 0 || bind(fd, (struct sockaddr *)&at, sizeof at) < 0) {
        perror("peers: no socket");
        exit(2);
    }
    return fd;
}

static void leave(int *fd)
{
    if (*fd >= 0)
        close(*fd);
    *fd = -1;
}

void sockets_begin(struct sockaddr_in at, const struct sockaddr_in *to, int room)
{
    signal(SIGPIPE, SIG_IGN);
    leave(&user);
    leave(&listener);
    is_open = has_ended = has_failed = 0;
    if (to) {
        user = made(at, room);
        has_failed = connect(user, (const struct sockaddr *)to, sizeof *to) < 0 && errno != EINPROGRESS;
    } else {
        listener = made(at, room);
        listen(listener, 1);
    }
}

static void read_some(void)
{
    static uint8_t text[1 << 16];
    for (;;) {
        size_t wants = user_wants(PEER, sizeof text);
        ssize_t count = wants > 0 ? recv(user, text, wants, 0) : -1;
        if (wants == 0 || (count < 0 && errno == EAGAIN))
            return;
        has_ended |= count == 0;
        has_failed |= count < 0;
        if (count <= 0)
            return;
        user_reads(PEER, text, (size_t)count);
    }
}

static void write_some(void)
{
    uint8_t text[1 << 14];
    size_t length;
    while ((length = user_text(PEER, text, sizeof text)) > 0) {
        ssize_t count = send(user, text, length, MSG_NOSIGNAL);
        if (count <= 0)
            return;
        trial.users[PEER].sent += (uint64_t)count;
    }
}

/* Whether there is a connection. */
static int opened(void)
{
    struct sockaddr_in other;
    socklen_t size = sizeof other, length = sizeof has_failed;
    int fault = 0;
    if (user < 0 && listener >= 0 && (user = accept(listener, NULL, NULL)) >= 0)
        fcntl(user, F_SETFL, O_NONBLOCK);
    if (user < 0)
        return 0;
    getsockopt(user, SOL_SOCKET, SO_ERROR, &fault, &length);
    has_failed |= fault != 0;
    is_open |= getpeername(user, (struct sockaddr *)&other, &size) == 0;
    return is_open;
}

void sockets_use(void)
{
    if (has_failed || !opened())
        return;
    if (!has_failed) {
        read_some();
        write_some();
    }
    trial.users[PEER].saw_end = has_ended;
    trial.users[PEER].saw_fault |= has_failed;
    if (user_aborts(PEER)) {
        struct linger none = {.l_onoff = 1};
        setsockopt(user, SOL_SOCKET, SO_LINGER, &none, sizeof none);
        leave(&user);
        has_failed = 1;
    } else if (user_closes(PEER)) {
        shutdown(user, SHUT_WR);
    }
}

int sockets_is_over(void) { return has_failed || (has_ended && trial.users[PEER].has_closed); }

void sockets_report(void)
{
    printf("    %s: open %d ended %d failed %d closed %d\n", PEER_NAME, is_open, has_ended, has_failed, trial.users[PEER].has_closed);
}
