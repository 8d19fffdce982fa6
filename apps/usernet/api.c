/* The API's socket, with slirp4netns's requests and answers (see usernet.h). C, tested and not proved.
   A client sends one request and shuts down its side, gets one answer, and is done. */
#define _GNU_SOURCE
#include "json.h"
#include "usernet.h"

#include <arpa/inet.h>
#include <errno.h>
#include <stdio.h>
#include <stdlib.h>
#include <string.h>
#include <sys/epoll.h>
#include <sys/socket.h>
#include <sys/stat.h>
#include <sys/un.h>
#include <unistd.h>

/* PATIENCE: the milliseconds that a client has for its request. TICK: after so many it is looked at again. */
enum { PATIENCE = 10000, TICK = 1000, BACKLOG = 128 };

static struct caller {
    int socket; /* or 0: that is none of theirs */
    uint64_t since;
    size_t length;
    char request[API_REQUEST + 1];
} callers[CALLERS];

/* Of `callers`, and whether the socket waits until one of them is done. */
static int count_now, is_full;

/* A socket that is left from before makes way, and nothing else does. Whoever may write to it may publish ports: nobody but its owner. */
int api_open(const char *path)
{
    struct sockaddr_un at = {.sun_family = AF_UNIX};
    struct stat found;
    if (snprintf(at.sun_path, sizeof at.sun_path, "%s", path) >= (int)sizeof at.sun_path)
        return -1;
    int api = socket(AF_UNIX, SOCK_STREAM | SOCK_NONBLOCK | SOCK_CLOEXEC, 0);
    if (lstat(path, &found) == 0 && S_ISSOCK(found.st_mode))
        unlink(path);
    mode_t before = umask(0177);
    int is_there = api >= 0 && bind(api, (struct sockaddr *)&at, sizeof at) == 0 && listen(api, BACKLOG) == 0;
    umask(before);
    if (is_there)
        return api;
    if (api >= 0)
        close(api);
    return -1;
}

int api_watch(struct usernet *net)
{
    struct epoll_event event = {.events = EPOLLIN, .data.u64 = API};
    return net->api < 0 || epoll_ctl(net->events, EPOLL_CTL_ADD, net->api, &event) == 0;
}

static void end_caller(struct usernet *net, struct caller *caller)
{
    close(caller->socket);
    caller->socket = 0;
    count_now--;
    if (is_full && api_watch(net))
        is_full = 0;
}

/* As long as there are CALLERS of them others wait. */
void api_accept(struct usernet *net)
{
    uint64_t place = 0;
    while (place < CALLERS && callers[place].socket)
        place++;
    if (place == CALLERS) {
        epoll_ctl(net->events, EPOLL_CTL_DEL, net->api, NULL);
        is_full = 1;
        return;
    }
    struct epoll_event event = {.events = EPOLLIN | EPOLLRDHUP, .data.u64 = CALLER + place};
    int socket = accept4(net->api, NULL, NULL, SOCK_NONBLOCK | SOCK_CLOEXEC);
    if (socket < 0)
        return;
    callers[place].socket = socket, callers[place].since = net->now, callers[place].length = 0;
    count_now++;
    if (epoll_ctl(net->events, EPOLL_CTL_ADD, socket, &event) != 0)
        end_caller(net, &callers[place]);
}

/* A request is whole once its client has shut down its side; one that is too long gets no answer, as nothing after it was read. */
void api_take(struct usernet *net, uint64_t place)
{
    static char out[API_ROOM];
    struct caller *caller = &callers[place];
    if (!caller->socket)
        return;
    ssize_t got = recv(caller->socket, caller->request + caller->length, sizeof caller->request - caller->length, MSG_DONTWAIT);
    if ((got < 0 && errno == EAGAIN) || (got > 0 && (caller->length += (size_t)got) <= API_REQUEST))
        return;
    if (got == 0) {
        size_t length = api_answer(net, caller->request, caller->length, out);
        send(caller->socket, out, length, MSG_DONTWAIT | MSG_NOSIGNAL); /* it has room for one answer */
    }
    end_caller(net, caller);
}

void api_expire(struct usernet *net)
{
    for (int at = 0; at < CALLERS; at++)
        if (callers[at].socket && net->now - callers[at].since >= PATIENCE)
            end_caller(net, &callers[at]);
}

int api_wait(int wait) { return count_now > 0 && (wait < 0 || wait > TICK) ? TICK : wait; }

void api_end(void)
{
    for (int at = 0; at < CALLERS; at++)
        if (callers[at].socket)
            close(callers[at].socket);
}

/* Writes what went wrong, in slirp4netns's words. */
static size_t refuse(char *out, const char *call, const char *why)
{
    return (size_t)snprintf(out, API_ROOM, "{\"error\":{\"desc\":\"bad request: %s%s\"}}", call, why);
}

enum { EXECUTE, PROTO, HOST_ADDR, HOST_PORT, GUEST_ADDR, GUEST_PORT, ID, MEMBERS };

/* Whether no address is named, or an empty one, as podman does. */
static int is_left_out(const struct json_member *member) { return member->kind == JSON_NONE || (member->kind == JSON_STRING && !*member->string); }

/* An address of the host's, of either family, or all that it has of IPv4 where none is named; whether it is one. */
static int read_host(const struct json_member *member, union place *at)
{
    if (is_left_out(member))
        return at->any.sa_family = AF_INET, 1;
    return member->kind == JSON_STRING && ports_read_host(member->string, at);
}

/* An address of the namespace, or its own where none is named; whether it is one. */
static int read_guest(const struct usernet *net, const struct json_member *member, tcpcore_addr *addr)
{
    const struct ip_net none = {.prefix = 32};
    if (is_left_out(member))
        return *addr = net->own, 1;
    return member->kind == JSON_STRING && inet_pton(AF_INET, member->string, addr) == 1 && ip_may_be_peer(none, *addr);
}

static int read_port(const struct json_member *member, uint16_t *port)
{
    *port = (uint16_t)member->number;
    return member->kind == JSON_NUMBER && member->number > 0 && member->number <= UINT16_MAX;
}

static size_t add(struct usernet *net, const struct json_member *members, char *out)
{
    static const char CALL[] = "add_hostfwd: ";
    const char *proto = members[PROTO].kind == JSON_STRING ? members[PROTO].string : "";
    struct published wanted = {.protocol = strcmp(proto, "udp") == 0 ? IP_UDP : IP_TCP};
    uint16_t port;
    if (wanted.protocol == IP_TCP && strcmp(proto, "tcp") != 0)
        return refuse(out, CALL, "bad arguments.proto");
    if (!read_host(&members[HOST_ADDR], &wanted.at))
        return refuse(out, CALL, "bad arguments.host_addr");
    if (!read_port(&members[HOST_PORT], &port))
        return refuse(out, CALL, "bad arguments.host_port");
    if (!read_guest(net, &members[GUEST_ADDR], &wanted.guest))
        return refuse(out, CALL, "bad arguments.guest_addr");
    if (!read_port(&members[GUEST_PORT], &wanted.guest_port))
        return refuse(out, CALL, "bad arguments.guest_port");
    *(wanted.at.any.sa_family == AF_INET6 ? &wanted.at.v6.sin6_port : &wanted.at.v4.sin_port) = htons(port);
    uint32_t id = ports_publish(net, wanted);
    return id ? (size_t)snprintf(out, API_ROOM, "{\"return\":{\"id\":%u}}", id) : refuse(out, CALL, "slirp_add_hostfwd failed");
}

static size_t list(const struct usernet *net, char *out)
{
    size_t length = (size_t)snprintf(out, API_ROOM, "{\"entries\":[");
    const char *comma = "";
    for (int at = 0; at < LISTENERS; at++) {
        const struct published *entry = &net->published[at];
        char addr[INET6_ADDRSTRLEN], guest[INET_ADDRSTRLEN];
        int is_v6 = entry->at.any.sa_family == AF_INET6;
        if (entry->id == 0)
            continue;
        inet_ntop(entry->at.any.sa_family, is_v6 ? (const void *)&entry->at.v6.sin6_addr : &entry->at.v4.sin_addr, addr, sizeof addr);
        inet_ntop(AF_INET, &entry->guest, guest, sizeof guest);
        length += (size_t)snprintf(out + length, API_ROOM - length,
                                   "%s{\"id\":%u,\"proto\":\"%s\",\"host_addr\":\"%s\",\"host_port\":%u,\"guest_addr\":\"%s\",\"guest_port\":%u}", comma,
                                   entry->id, entry->protocol == IP_TCP ? "tcp" : "udp", addr, ntohs(is_v6 ? entry->at.v6.sin6_port : entry->at.v4.sin_port), guest, entry->guest_port);
        comma = ",";
    }
    return length + (size_t)snprintf(out + length, API_ROOM - length, "]}");
}

size_t api_answer(struct usernet *net, const char *request, size_t length, char *out)
{
    struct json_member members[MEMBERS] = {
        [EXECUTE] = {.path = "execute"}, [PROTO] = {.path = "arguments.proto"}, [HOST_ADDR] = {.path = "arguments.host_addr"},
        [HOST_PORT] = {.path = "arguments.host_port"}, [GUEST_ADDR] = {.path = "arguments.guest_addr"},
        [GUEST_PORT] = {.path = "arguments.guest_port"}, [ID] = {.path = "arguments.id"}};
    if (!json_read(request, length, members, MEMBERS))
        return refuse(out, "", "cannot parse JSON");
    if (members[EXECUTE].kind != JSON_STRING)
        return refuse(out, "", "no execute found");
    if (strcmp(members[EXECUTE].string, "add_hostfwd") == 0)
        return add(net, members, out);
    if (strcmp(members[EXECUTE].string, "list_hostfwd") == 0)
        return list(net, out);
    if (strcmp(members[EXECUTE].string, "remove_hostfwd") != 0)
        return refuse(out, "", "unknown execute");
    if (members[ID].kind != JSON_NUMBER || !ports_remove(net, members[ID].number))
        return refuse(out, "remove_hostfwd: ", "bad arguments.id");
    return (size_t)snprintf(out, API_ROOM, "{\"return\":{}}");
}
