/* Users behind sockets of this machine (see sockets.h). */
#define _GNU_SOURCE
#include "sockets.h"

#include <errno.h>
#include <fcntl.h>
#include <netinet/in.h>
#include <netinet/tcp.h>
#include <sys/socket.h>
#include <unistd.h>

static int users[HANDLES], count, listeners[LISTENERS], listened[LISTENERS], listener_count;

static int made(uint16_t port, const struct wishes *wishes)
{
    struct sockaddr_in at = {.sin_family = AF_INET, .sin_port = htons(port), .sin_addr.s_addr = htonl(INADDR_LOOPBACK)};
    int fd = socket(AF_INET, SOCK_STREAM | SOCK_NONBLOCK | SOCK_CLOEXEC, 0), one = 1, room = (int)wishes->capacity;
    setsockopt(fd, SOL_SOCKET, SO_REUSEADDR, &one, sizeof one);
    setsockopt(fd, IPPROTO_TCP, TCP_NODELAY, &one, sizeof one);
    if (room > 0)
        setsockopt(fd, SOL_SOCKET, SO_RCVBUF, &room, sizeof room);
    return bind(fd, (struct sockaddr *)&at, sizeof at) < 0 ? -1 : fd;
}

/* Of the stack's own connection nothing can be wished but that small pieces go out at once, as they do. */
static int can_be(const struct wishes *wishes) { return wishes->nagle <= 0 && wishes->ttl < 0 && wishes->service < 0 && !wishes->keeps; }

int stack_listen(uint16_t port, const struct wishes *wishes)
{
    int fd = listener_count < LISTENERS && can_be(wishes) ? made(port, wishes) : -1;
    if (fd < 0 || listen(fd, 16) < 0)
        return 0;
    listened[listener_count] = port;
    listeners[listener_count++] = fd;
    return 1;
}

static int handle_of(int fd)
{
    if (fd < 0 || count == HANDLES)
        return -1;
    users[count] = fd;
    return count++;
}

int sockets_connect(uint16_t from, uint16_t to, const struct wishes *wishes)
{
    struct sockaddr_in at = {.sin_family = AF_INET, .sin_port = htons(to), .sin_addr.s_addr = htonl(INADDR_LOOPBACK)};
    int fd = can_be(wishes) ? made(from, wishes) : -1;
    if (fd < 0 || (connect(fd, (struct sockaddr *)&at, sizeof at) < 0 && errno != EINPROGRESS))
        return -1;
    return handle_of(fd);
}

int stack_accept(uint16_t port)
{
    for (int at = 0; at < listener_count; at++)
        if (listened[at] == port)
            return handle_of(accept4(listeners[at], NULL, NULL, SOCK_NONBLOCK | SOCK_CLOEXEC));
    return -1;
}

long stack_send(int number, const void *text, size_t length)
{
    ssize_t sent = send(users[number], text, length, MSG_NOSIGNAL);
    return sent >= 0 ? sent : errno == EAGAIN ? STACK_NOTHING : STACK_RESET;
}

long stack_receive(int number, void *out, size_t room)
{
    ssize_t found = recv(users[number], out, room, 0);
    return found > 0 ? found : found == 0 ? STACK_ENDED : errno == EAGAIN ? STACK_NOTHING : errno == ETIMEDOUT ? STACK_TIMED_OUT : STACK_RESET;
}

int stack_is_open(int number)
{
    struct sockaddr_in peer;
    socklen_t size = sizeof peer;
    return getpeername(users[number], (struct sockaddr *)&peer, &size) == 0;
}

void stack_close(int number) { shutdown(users[number], SHUT_WR); }

void stack_leave(int number)
{
    close(users[number]);
    users[number] = -1;
}

void stack_abort(int number)
{
    struct linger none = {.l_onoff = 1};
    setsockopt(users[number], SOL_SOCKET, SO_LINGER, &none, sizeof none);
    stack_leave(number);
}

int stack_wish(int number, const struct wishes *wishes)
{
    (void)number;
    (void)wishes;
    return 0;
}
