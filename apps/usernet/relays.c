/* Relays of datagrams and echoes: how they are found, for how long they live, and what their senders are told (see usernet.h). C over the
   companions of tcpcore.h, tested and not proved. */
#define _GNU_SOURCE
#include "relays.h"
#include "companions/segment.h"

#include <errno.h>
#include <stdlib.h>
#include <string.h>
#include <sys/epoll.h>
#include <unistd.h>

/* SILENCE: the milliseconds after which a relay goes through which nothing went: two minutes (RFC 4787, 4.3), and for questions to name servers
   or an echo ten seconds. */
enum { SILENCE = 120000, SHORT_SILENCE = 10000 };

static struct relay *relay_of(struct link *link) { return (struct relay *)(void *)((char *)link - offsetof(struct relay, order)); }

static struct pairs *pairs_of(struct usernet *net, uint8_t protocol) { return protocol == IP_UDP ? &net->datagrams : &net->echoes; }

struct relay *relay_find(struct usernet *net, const struct pair *key, uint8_t protocol)
{
    return (struct relay *)(void *)pairs_find(pairs_of(net, protocol), key);
}

void relay_touch(struct usernet *net, struct relay *relay)
{
    relay->since = net->now;
    queue_add(relay->is_lasting ? &net->relays : &net->brief, &relay->order);
    count(net, DATAGRAMS, 1);
}

/* An event of this turn may be its own, so that it stays where it is. */
static void drop_relay(struct usernet *net, struct relay *relay)
{
    pairs_remove(pairs_of(net, relay->protocol), &relay->pair);
    queue_leave(&relay->order);
    v6_hold(net, &relay->pair, -1);
    if (relay->is_inward)
        pairs_remove(&net->inward, &relay->outer);
    else
        close(relay->socket);
    relay->is_dropped = 1;
    relay->next = net->gone;
    net->gone = relay;
}

void relays_free(struct usernet *net)
{
    while (net->gone) {
        struct relay *relay = net->gone;
        net->gone = relay->next;
        free(relay);
    }
}

/* The one through which nothing went for the longest time, or NULL. */
static struct relay *oldest_relay(struct usernet *net)
{
    struct relay *oldest = net->relays.oldest ? relay_of(net->relays.oldest) : NULL, *brief = net->brief.oldest ? relay_of(net->brief.oldest) : NULL;
    return !oldest || (brief && brief->since < oldest->since) ? brief : oldest;
}

void relays_end(struct usernet *net)
{
    for (struct relay *relay; (relay = oldest_relay(net));)
        drop_relay(net, relay);
    relays_free(net);
}

static void expire(struct usernet *net, const struct queue *queue, uint64_t silence)
{
    while (queue->oldest && net->now - relay_of(queue->oldest)->since >= silence)
        drop_relay(net, relay_of(queue->oldest));
}

void relays_expire(struct usernet *net)
{
    expire(net, &net->relays, SILENCE);
    expire(net, &net->brief, SHORT_SILENCE);
}

static void remove_from(struct usernet *net, const struct queue *queue, uint64_t place)
{
    for (struct link *link = queue->oldest, *newer; link; link = newer) {
        struct relay *relay = relay_of(link);
        newer = link->newer;
        if (relay->is_inward && relay->outer.server_port == place)
            drop_relay(net, relay);
    }
}

void relays_remove(struct usernet *net, uint64_t place)
{
    remove_from(net, &net->relays, place);
    remove_from(net, &net->brief, place);
}

/* The one that was silent for the longest time makes way for another. */
static struct relay *make(struct usernet *net, const struct relay *made)
{
    while (net->relays.count + net->brief.count >= net->limits.flows)
        drop_relay(net, oldest_relay(net));
    struct relay *relay = malloc(sizeof *relay);
    if (relay)
        *relay = *made;
    return relay;
}

/* It has its place in a table, and among those that are brief until something is sent that isn't. */
static struct relay *enter(struct usernet *net, struct relay *relay)
{
    pairs_add(pairs_of(net, relay->protocol), &relay->pair);
    v6_hold(net, &relay->pair, 1);
    relay->since = net->now;
    queue_add(&net->brief, &relay->order);
    count(net, FLOWS, 1);
    return relay;
}

struct relay *relay_new(struct usernet *net, const struct pair *key, uint8_t protocol, int socket)
{
    struct relay *relay = make(net, &(struct relay){.pair = *key, .socket = socket, .hops = -1, .protocol = protocol});
    /* The lowest bit tells it from a connection. */
    struct epoll_event event = {.events = EPOLLIN, .data.u64 = (uint64_t)(uintptr_t)relay | 1};
    if (relay && epoll_ctl(net->events, EPOLL_CTL_ADD, socket, &event) == 0)
        return enter(net, relay);
    free(relay);
    close(socket);
    errno = ENOMEM;
    return NULL;
}

struct relay *relay_new_inward(struct usernet *net, const struct pair *key, const struct pair *outer, int socket)
{
    struct relay *relay = make(net, &(struct relay){.pair = *key, .outer = *outer, .socket = socket, .protocol = IP_UDP, .is_inward = 1,
                                                    .is_lasting = 1});
    if (!relay)
        return NULL;
    pairs_add(&net->inward, &relay->outer);
    return enter(net, relay);
}

/* The code of a fault of the host's (RFC 792; RFC 1812, 5.2.7.1). */
static uint8_t code_of(int fault)
{
    if (fault == ECONNREFUSED)
        return ICMP_NO_PORT;
    if (fault == EACCES || fault == EPERM)
        return ICMP_PROHIBITED;
    return fault == EHOSTUNREACH || fault == ETIMEDOUT || fault == EHOSTDOWN ? ICMP_NO_HOST : ICMP_NO_NET;
}

/* An error has the front of the packet that met it, which is all that the namespace's kernel looks at (RFC 1122, 3.2.2). */
static void report(struct usernet *net, const struct pair *key, uint8_t protocol, const uint8_t *front, tcpcore_addr from, uint8_t code, int is_expired)
{
    uint8_t packet[IP_HEADER + UNREACHABLE_FRONT], *message = segment_place(net);
    int is_v6 = ip6_is_surrogate(key->client);
    size_t length = is_v6 ? v6_unreachable(net, key, protocol, front, code) : ip_write_any(packet, key->client, key->server, UNREACHABLE_FRONT, protocol);
    if (length == 0 || !limits_answer(net))
        return;
    count(net, UNREACHABLE, 1);
    if (!is_v6) {
        memcpy(packet + IP_HEADER, front, UNREACHABLE_FRONT);
        length = icmp_unreachable(message, code, packet, length);
    }
    if (is_expired) {
        message[0] = is_v6 ? ICMP6_EXPIRED : ICMP_EXPIRED, message[1] = 0;
        write16(message + 2, 0);
        write16(message + 2, is_v6 ? 0 : (uint16_t)~words_sum(message, length, 0));
    }
    send_packet(net, length, from, key->client, is_v6 ? IP6_ICMP : IP_ICMP);
}

void report_unreachable(struct usernet *net, const struct pair *key, uint8_t protocol, const uint8_t *front, int fault)
{
    report(net, key, protocol, front, key->server, code_of(fault), 0);
}

void report_expired(struct usernet *net, const struct pair *key, uint8_t protocol, const uint8_t *front, tcpcore_addr router)
{
    report(net, key, protocol, front, router, ICMP_NO_NET, 1);
}

void relay_front(const struct pair *key, uint8_t protocol, uint16_t sequence, uint8_t front[UNREACHABLE_FRONT])
{
    memset(front, 0, UNREACHABLE_FRONT);
    if (protocol == IP_UDP) {
        udp_write(front, key->client, key->client_port, key->server, key->server_port, 0);
        return;
    }
    write16(front + 6, sequence);
    icmp_make_echo(front, ICMP_HEADER, protocol == IP_ICMP ? ICMP_ECHO : ICMP6_ECHO, key->client_port);
}
