/* Ports of the host's that lead into the namespace (see usernet.h). C, tested and not proved. */
#define _GNU_SOURCE
#include "usernet.h"

#include <arpa/inet.h>
#include <errno.h>
#include <string.h>
#include <sys/epoll.h>
#include <sys/socket.h>
#include <unistd.h>

/* PAUSE: the milliseconds for which nothing is accepted where the system lacks what that takes. */
enum { PAUSE = 100, BACKLOG = 1024 };

int ports_read_host(const char *word, union place *place)
{
    *place = (union place){0};
    if (inet_pton(AF_INET, word, &place->v4.sin_addr) == 1)
        return place->any.sa_family = AF_INET, 1;
    if (inet_pton(AF_INET6, word, &place->v6.sin6_addr) == 1)
        return place->any.sa_family = AF_INET6, 1;
    return 0;
}

/* A socket of the host's that listens on this port, or takes its datagrams; below 0 where it can't, with errno. */
static int open_port(const struct published *wanted)
{
    int is_stream = wanted->protocol == IP_TCP, family = wanted->at.any.sa_family;
    int port = socket(family, (is_stream ? SOCK_STREAM : SOCK_DGRAM) | SOCK_NONBLOCK | SOCK_CLOEXEC, 0);
    /* Of datagrams that would let two sockets have one port. */
    if (port >= 0 && is_stream)
        setsockopt(port, SOL_SOCKET, SO_REUSEADDR, &(int){1}, sizeof(int));
    /* The same port of 0.0.0.0 is another one. */
    if (port >= 0 && family == AF_INET6)
        setsockopt(port, IPPROTO_IPV6, IPV6_V6ONLY, &(int){1}, sizeof(int));
    if (port < 0 || (bind(port, &wanted->at.any, place_length(&wanted->at)) == 0 && (!is_stream || listen(port, BACKLOG) == 0)))
        return port;
    int fault = errno;
    close(port);
    errno = fault;
    return -1;
}

/* What comes to a port is waited for, once there is a loop. */
static int waits(struct usernet *net, uint64_t place)
{
    const struct published *at = &net->published[place];
    struct epoll_event event = {.events = EPOLLIN, .data.u64 = place};
    return at->id == 0 || net->events < 0 || epoll_ctl(net->events, EPOLL_CTL_ADD, at->socket, &event) == 0 || errno == EEXIST;
}

/* Where nothing is published yet, or LISTENERS. */
static uint64_t free_place(const struct usernet *net)
{
    uint64_t place = 0;
    while (place < LISTENERS && net->published[place].id != 0)
        place++;
    return place;
}

uint32_t ports_publish(struct usernet *net, struct published wanted)
{
    uint64_t place = free_place(net);
    errno = ENOSPC;
    wanted.socket = place < LISTENERS ? open_port(&wanted) : -1;
    if (wanted.socket < 0)
        return 0;
    wanted.id = ++net->last_id;
    net->published[place] = wanted;
    if (waits(net, place))
        return wanted.id;
    ports_remove(net, wanted.id);
    return 0;
}

/* Closing its socket takes it out of what is waited for. */
int ports_remove(struct usernet *net, uint32_t id)
{
    uint64_t place = 0;
    while (place < LISTENERS && net->published[place].id != id)
        place++;
    if (id == 0 || place == LISTENERS)
        return 0;
    if (net->published[place].protocol == IP_UDP)
        relays_remove(net, place);
    close(net->published[place].socket);
    net->published[place] = (struct published){0};
    return 1;
}

/* Connections of the host wait for a while: what they would take isn't there. */
static void pause_all(struct usernet *net)
{
    const struct published *published = net->published;
    net->listens_at = net->now + PAUSE;
    for (uint64_t at = 0; at < LISTENERS; at++)
        if (published[at].id != 0 && published[at].protocol == IP_TCP)
            epoll_ctl(net->events, EPOLL_CTL_DEL, published[at].socket, NULL);
}

int ports_listen(struct usernet *net)
{
    int listens = 1;
    net->listens_at = 0;
    for (uint64_t at = 0; at < LISTENERS; at++)
        listens = listens && waits(net, at);
    if (!listens)
        pause_all(net);
    return listens;
}

/* What was published may have gone since the event was found. */
void ports_take(struct usernet *net, uint64_t place)
{
    const struct published *published = &net->published[place];
    int is_stream = published->id != 0 && published->protocol == IP_TCP;
    int socket = is_stream ? accept4(published->socket, NULL, NULL, SOCK_NONBLOCK | SOCK_CLOEXEC) : -1;
    if (socket >= 0) {
        conn_publish(net, socket, published);
    } else if (is_stream && is_exhausted(errno)) {
        count(net, EXHAUSTED, 1);
        pause_all(net);
    } else if (published->id != 0 && published->protocol == IP_UDP) {
        relays_inward(net, published, place);
    }
}

/* A connection that has an end is in none of the tables. */
static int is_used(struct usernet *net, const struct pairs *used, const struct pair *key)
{
    return pairs_find(used, key) || (used == &net->pairs && ends_find(net, key));
}

int ports_deal(struct usernet *net, const struct pairs *used, struct pair *key)
{
    for (uint64_t left = net->limits.ports; left > 0; left--) {
        net->next_port = (uint16_t)((net->next_port + 1u) % net->limits.ports);
        key->server_port = (uint16_t)(FIRST_PORT + net->next_port);
        if (!is_used(net, used, key))
            return 1;
    }
    return 0;
}
