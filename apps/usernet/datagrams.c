/* What goes through relays: datagrams and echoes (see usernet.h). C over the companions of tcpcore.h, tested and not proved.
   All that a socket of the namespace sends goes out by one socket of the host's, whatever it is sent to (RFC 4787, 4.1), and what comes
   there is let in whoever sends it (5), but for the host's loopback, which answers where it was asked. Questions to the host's name server
   are by themselves, so that nobody else can answer them. */
#define _GNU_SOURCE
#include "relays.h"
#include "companions/segment.h"

#include <errno.h>
#include <linux/errqueue.h>
#include <string.h>
#include <sys/epoll.h>
#include <sys/socket.h>

/* TURNS: the most packets of one relay before others have their turn. COMMON_HOPS: how many routers most hosts' packets may pass (RFC 1700). */
enum { DOMAIN_PORT = 53, TURNS = 32, COMMON_HOPS = 64 };

static int kind_of(uint8_t protocol) { return protocol == IP_UDP ? 0 : protocol == IP_ICMP ? IPPROTO_ICMP : IPPROTO_ICMPV6; }

/* Which of the addresses that stand for the host it is: there is no such host. */
static int is_gateway(struct usernet *net, tcpcore_addr addr)
{
    const struct ip6_addr *v6 = ip6_is_surrogate(addr) ? v6_find(net, addr) : NULL;
    return v6 ? memcmp(v6, &V6_GATEWAY, sizeof *v6) == 0 : memcmp(&addr, &net->gateway, sizeof addr) == 0;
}

static int is_resolver(struct usernet *net, tcpcore_addr addr)
{
    const struct ip6_addr *v6 = ip6_is_surrogate(addr) ? v6_find(net, addr) : NULL;
    return v6 ? memcmp(v6, &V6_RESOLVER, sizeof *v6) == 0 : memcmp(&addr, &net->resolver, sizeof addr) == 0;
}

/* A relay to one place alone; NULL where there is none, with errno. */
static struct relay *new_connected(struct usernet *net, const struct pair *key, uint8_t protocol, const union place *to)
{
    int host = host_socket(net, to, SOCK_DGRAM, kind_of(protocol));
    return host >= 0 ? relay_new(net, key, protocol, host) : NULL;
}

/* The relay of all that a socket of the namespace sends by this family. */
static struct relay *open_relay(struct usernet *net, const struct pair *key, int family)
{
    struct pair own = {.client = key->client, .client_port = key->client_port};
    struct relay *relay = relay_find(net, &own, IP_UDP);
    int host = relay ? -1 : host_open(net, family);
    if (host >= 0 && (relay = relay_new(net, &own, IP_UDP, host)))
        relay->is_open = 1;
    return relay;
}

/* Sends it to the other side, which only an open relay needs; whether the socket took it. */
static int goes_out(const struct relay *relay, const union place *to, const uint8_t *text, size_t length)
{
    if (relay->is_inward)
        to = &relay->from;
    else if (!relay->is_open)
        return send(relay->socket, text, length, MSG_NOSIGNAL) >= 0;
    return sendto(relay->socket, text, length, MSG_NOSIGNAL, &to->any, place_length(to)) >= 0;
}

/* Whether what a relay's packets meet is told by its socket's queue of errors. */
static int keeps_errors(const struct relay *relay) { return relay->is_open || relay->protocol != IP_UDP; }

/* What a message of the kernel's says of a packet that was sent, and who has told it; whether it says anything. */
static int read_error(struct msghdr *message, struct sock_extended_err *error, union place *from)
{
    for (struct cmsghdr *at = CMSG_FIRSTHDR(message); at; at = CMSG_NXTHDR(message, at)) {
        if (!(at->cmsg_level == SOL_IP && at->cmsg_type == IP_RECVERR) && !(at->cmsg_level == SOL_IPV6 && at->cmsg_type == IPV6_RECVERR))
            continue;
        memcpy(error, CMSG_DATA(at), sizeof *error);
        memcpy(from, CMSG_DATA(at) + sizeof *error, at->cmsg_level == SOL_IP ? sizeof from->v4 : sizeof from->v6);
        return error->ee_errno != EMSGSIZE;
    }
    return 0;
}

/* Whether a packet has passed as many routers as it might (RFC 792; RFC 4443, 3.3). */
static int is_expired(const struct sock_extended_err *error)
{
    return error->ee_code == 0 && ((error->ee_origin == SO_EE_ORIGIN_ICMP && error->ee_type == ICMP_EXPIRED) ||
                                   (error->ee_origin == SO_EE_ORIGIN_ICMP6 && error->ee_type == ICMP6_EXPIRED));
}

/* The namespace is told of one error: of a datagram by where it went, and of an echo by its sequence number. */
static void tell_error(struct usernet *net, const struct relay *relay, const union place *to, const uint8_t *quoted,
                       const struct sock_extended_err *error, const union place *from)
{
    struct pair key = relay->pair;
    uint8_t front[UNREACHABLE_FRONT];
    tcpcore_addr router;
    key.server_port = ntohs(to->any.sa_family == AF_INET6 ? to->v6.sin6_port : to->v4.sin_port);
    if (relay->is_open && !host_sender(net, to, &key.server))
        return;
    relay_front(&key, relay->protocol, read16(quoted + 6), front);
    if (!is_expired(error))
        report_unreachable(net, &key, relay->protocol, front, (int)error->ee_errno);
    else if (host_sender(net, from, &router))
        report_expired(net, &key, relay->protocol, front, router);
}

static void take_errors(struct usernet *net, const struct relay *relay)
{
    for (int turn = 0; turn < TURNS; turn++) {
        union place to = {0}, from = {0};
        uint8_t quoted[ICMP_HEADER] = {0};
        struct sock_extended_err error;
        struct iovec piece = {quoted, sizeof quoted};
        union { struct cmsghdr head; char bytes[512]; } control;
        struct msghdr message = {.msg_name = &to, .msg_namelen = sizeof to, .msg_iov = &piece, .msg_iovlen = 1, .msg_control = &control,
                                 .msg_controllen = sizeof control};
        if (recvmsg(relay->socket, &message, MSG_ERRQUEUE | MSG_DONTWAIT) < 0)
            return;
        if (read_error(&message, &error, &from))
            tell_error(net, relay, &to, quoted, &error, &from);
    }
}

/* The same of a packet that nobody keeps. */
static void tell_sender(struct usernet *net, const struct pair *key, uint8_t protocol, int fault)
{
    uint8_t front[UNREACHABLE_FRONT];
    relay_front(key, protocol, 0, front);
    report_unreachable(net, key, protocol, front, fault);
}

/* What the namespace sends may pass one router less behind this one (RFC 1812, 5.3.1), where that is less than hosts have it by themselves. */
static void set_hops(struct usernet *net, struct relay *relay)
{
    int hops = net->hops < COMMON_HOPS ? net->hops - 1 : -1, is_v6 = ip6_is_surrogate(relay->pair.client);
    if (hops == relay->hops || !keeps_errors(relay) || relay->is_inward)
        return;
    setsockopt(relay->socket, is_v6 ? IPPROTO_IPV6 : IPPROTO_IP, is_v6 ? IPV6_UNICAST_HOPS : IP_TTL, &hops, sizeof hops);
    relay->hops = hops;
}

/* Whether a packet to a host behind this one may pass no router; it is told of the gateway then. */
static int expires_here(struct usernet *net, const struct pair *key, uint8_t protocol, const uint8_t *front)
{
    tcpcore_addr here = net->gateway;
    if (net->hops > 1)
        return 0;
    if (!ip6_is_surrogate(key->client) || v6_enter(net, &V6_GATEWAY, &here))
        report_expired(net, key, protocol, front, here);
    return 1;
}

/* What came from the namespace goes to the other side. What a socket can't take is lost, as on any network; what an earlier packet met is
   answered first, and then no more. */
static void carry_out(struct usernet *net, struct relay *relay, const struct pair *key, uint8_t protocol, const union place *to,
                      const uint8_t *text, size_t length)
{
    if (relay) {
        relay_touch(net, relay);
        set_hops(net, relay);
        if (goes_out(relay, to, text, length))
            return;
        int fault = errno;
        if (keeps_errors(relay))
            take_errors(net, relay);
        if ((keeps_errors(relay) || fault == ECONNREFUSED) && goes_out(relay, to, text, length))
            return;
    }
    if (is_exhausted(errno) || errno == EMSGSIZE || errno == EAGAIN)
        count(net, EXHAUSTED, 1);
    else
        tell_sender(net, key, protocol, errno);
}

/* The relay of a datagram to a place of the host; NULL where there is none, with errno. */
static struct relay *relay_to(struct usernet *net, const struct pair *key, const union place *to)
{
    if (is_resolver(net, key->server))
        return new_connected(net, key, IP_UDP, to);
    struct relay *relay = open_relay(net, key, to->any.sa_family);
    if (relay) {
        relay->is_lasting = relay->is_lasting || key->server_port != DOMAIN_PORT;
        relay->has_loopback = relay->has_loopback || host_is_loopback(to);
    }
    return relay;
}

void relays_datagram(struct usernet *net, const struct ip_packet *packet, int vouched)
{
    struct udp found;
    if (udp_read(packet, vouched, &found) != UDP_DONE) {
        count(net, MALFORMED, 1);
        return;
    }
    struct pair key = {packet->src, packet->dst, found.src_port, found.dst_port, NULL};
    /* An answer to a published port's client, or one more question to the name server. */
    int is_here = is_gateway(net, key.server) || is_resolver(net, key.server);
    struct relay *relay = is_here ? relay_find(net, &key, IP_UDP) : NULL;
    union place to = {0};
    if (!is_here && expires_here(net, &key, IP_UDP, packet->segment))
        return;
    if (!relay && host_place(net, key.server, key.server_port, &to))
        relay = relay_to(net, &key, &to);
    carry_out(net, relay, &key, IP_UDP, &to, found.text, found.length);
}

void relays_message(struct usernet *net, const struct ip_packet *packet, uint8_t protocol)
{
    int is_v6 = protocol == IP6_ICMP;
    if (!is_v6 && !icmp_is_whole(packet)) {
        count(net, MALFORMED, 1);
        return;
    }
    struct pair key = {packet->src, packet->dst, icmp_id(packet->segment), 0, NULL};
    struct icmp_error error;
    if (is_v6 ? v6_read_error(net, &error) : icmp_read_error(packet, &error))
        conn_error(net, &error);
    if (packet->segment[0] != (is_v6 ? ICMP6_ECHO : ICMP_ECHO))
        return;
    /* The gateway and the name server answer echoes themselves: there is no such host. */
    if (!is_gateway(net, packet->dst) && !is_resolver(net, packet->dst)) {
        struct relay *relay = relay_find(net, &key, protocol);
        union place to = {0};
        if (expires_here(net, &key, protocol, packet->segment))
            return;
        if (!relay && host_place(net, key.server, 0, &to))
            relay = new_connected(net, &key, protocol, &to);
        carry_out(net, relay, &key, protocol, &to, packet->segment, packet->length);
        return;
    }
    memcpy(segment_place(net), packet->segment, packet->length);
    icmp_make_echo(segment_place(net), packet->length, is_v6 ? ICMP6_REPLY : ICMP_REPLY, key.client_port);
    send_packet(net, packet->length, packet->dst, packet->src, protocol);
    count(net, DATAGRAMS, 1);
}

/* A datagram of so many bytes, which lie behind its header's place, goes to the namespace. */
static void deliver(struct usernet *net, struct relay *relay, tcpcore_addr from, uint16_t port, size_t length)
{
    const struct pair *pair = &relay->pair;
    length = udp_write(segment_place(net), from, port, pair->client, pair->client_port, length);
    send_packet(net, length, from, pair->client, IP_UDP);
    relay_touch(net, relay);
}

/* What came to an open relay; whether there may be more. */
static int take_any(struct usernet *net, struct relay *relay)
{
    union place from = {0};
    socklen_t size = sizeof from;
    ssize_t got = recvfrom(relay->socket, segment_place(net) + UDP_HEADER, UDP_MOST, MSG_DONTWAIT, &from.any, &size);
    tcpcore_addr addr;
    if (got < 0)
        return errno != EAGAIN && errno != EINTR; /* what its errors say is told by take_errors */
    if ((relay->has_loopback || !host_is_loopback(&from)) && host_sender(net, &from, &addr))
        deliver(net, relay, addr, ntohs(from.any.sa_family == AF_INET6 ? from.v6.sin6_port : from.v4.sin_port), (size_t)got);
    return 1;
}

/* One packet of the other side's goes to the namespace; whether there was one. */
static int carry_in(struct usernet *net, struct relay *relay)
{
    const struct pair *pair = &relay->pair;
    uint8_t *place = segment_place(net);
    if (relay->is_open)
        return take_any(net, relay);
    ssize_t got = recv(relay->socket, place + (relay->protocol == IP_UDP ? UDP_HEADER : 0), UDP_MOST, MSG_DONTWAIT);
    if (got < 0) {
        int is_fault = errno != EAGAIN && errno != EINTR;
        if (is_fault && !keeps_errors(relay))
            tell_sender(net, pair, relay->protocol, errno);
        return is_fault && keeps_errors(relay); /* take_errors tells */
    }
    if (relay->protocol == IP_UDP) {
        deliver(net, relay, pair->server, pair->server_port, (size_t)got);
    } else if (got >= ICMP_HEADER) {
        icmp_make_echo(place, (size_t)got, relay->protocol == IP_ICMP ? ICMP_REPLY : ICMP6_REPLY, pair->client_port);
        send_packet(net, (size_t)got, pair->server, pair->client, relay->protocol);
        relay_touch(net, relay);
    }
    return 1;
}

void relays_readable(struct usernet *net, struct relay *relay, uint32_t events)
{
    if (!relay->is_dropped && keeps_errors(relay) && (events & EPOLLERR))
        take_errors(net, relay);
    for (int turn = 0; turn < TURNS && !relay->is_dropped && carry_in(net, relay); turn++)
        ;
}

/* Who sends to a published port: by its address, or by a hash of that. */
static struct pair outer_of(struct usernet *net, uint64_t place, const union place *from)
{
    struct pair outer = {.server_port = (uint16_t)place};
    struct ip6_addr v6;
    if (from->any.sa_family == AF_INET6) {
        memcpy(&v6, &from->v6.sin6_addr, sizeof v6);
        outer.client = ip6_surrogate(v6, net->pairs.secret), outer.client_port = ntohs(from->v6.sin6_port);
    } else {
        memcpy(&outer.client, &from->v4.sin_addr, sizeof outer.client);
        outer.client_port = ntohs(from->v4.sin_port);
    }
    return outer;
}

/* The relay of a host's client that sends to a published port, at this place; NULL where there is none. */
static struct relay *inward_relay(struct usernet *net, const struct published *published, uint64_t place, const union place *from)
{
    struct pair key = {.client = published->guest, .client_port = published->guest_port, .server = net->gateway};
    struct pair outer = outer_of(net, place, from), *found = pairs_find(&net->inward, &outer);
    struct relay *relay = found ? (struct relay *)(void *)((char *)found - offsetof(struct relay, outer)) : NULL;
    if (relay) /* another one with the same hash is nobody's client */
        return from->any.sa_family == AF_INET || IN6_ARE_ADDR_EQUAL(&relay->from.v6.sin6_addr, &from->v6.sin6_addr) ? relay : NULL;
    relay = ports_deal(net, &net->datagrams, &key) ? relay_new_inward(net, &key, &outer, published->socket) : NULL;
    if (relay)
        relay->from = *from;
    return relay;
}

void relays_inward(struct usernet *net, const struct published *published, uint64_t place)
{
    for (int turn = 0; turn < TURNS; turn++) {
        union place from = {0};
        socklen_t size = sizeof from;
        ssize_t got = recvfrom(published->socket, segment_place(net) + UDP_HEADER, UDP_MOST, MSG_DONTWAIT, &from.any, &size);
        if (got < 0)
            return;
        struct relay *relay = inward_relay(net, published, place, &from);
        if (relay)
            deliver(net, relay, relay->pair.server, relay->pair.server_port, (size_t)got);
        else
            count(net, EXHAUSTED, 1);
    }
}
