/* IPv6 (see usernet.h): a packet's addresses are dealt surrogates when it comes, and are put back where one goes out. All between deals with
   surrogates as with addresses. C over the companions of tcpcore.h, tested and not proved. */
#define _GNU_SOURCE
#include "usernet.h"
#include "companions/segment.h"

#include <linux/virtio_net.h>
#include <string.h>

/* fd00::2 leads to the host's loopback, fd00::3 to its name server, and fe80::2 is a neighbour's address for both. */
const struct ip6_addr V6_GATEWAY = {{0xfd, [15] = 2}}, V6_RESOLVER = {{0xfd, [15] = 3}};
static const struct ip6_addr V6_ROUTER = {{0xfe, 0x80, [15] = 2}}, V6_OWN = {{0xfd, [14] = 1}};

/* The fragment header (RFC 8200, 4.5). */
enum { FRAGMENT = 44, FRAGMENT_HEADER = 8, MORE = 0x2000 };

static int is_equal(const struct ip6_addr *one, const struct ip6_addr *other) { return memcmp(one, other, sizeof *one) == 0; }

int v6_is_own(const struct ip6_addr *addr) { return is_equal(addr, &V6_GATEWAY) || is_equal(addr, &V6_RESOLVER) || is_equal(addr, &V6_OWN); }

/* Where an address with this surrogate is, if it is anywhere. */
static struct v6_entry *set_of(struct usernet *net, tcpcore_addr surrogate) { return net->v6 + (size_t)V6_WAYS * (read32(surrogate.byte) % V6_SETS); }

static struct v6_entry *entry_of(struct usernet *net, tcpcore_addr surrogate)
{
    struct v6_entry *set = net->v6 ? set_of(net, surrogate) : NULL;
    for (int way = 0; set && way < V6_WAYS; way++)
        if (set[way].entered && memcmp(&set[way].surrogate, &surrogate, sizeof surrogate) == 0)
            return &set[way];
    return NULL;
}

const struct ip6_addr *v6_find(struct usernet *net, tcpcore_addr surrogate)
{
    const struct v6_entry *entry = entry_of(net, surrogate);
    return entry ? &entry->addr : NULL;
}

/* The place of an address: its own, or that of the one which nothing holds and that was entered before the others; NULL where all are held, or
   the one that has the same surrogate is. */
static struct v6_entry *place_for(struct usernet *net, const struct ip6_addr *addr, tcpcore_addr surrogate)
{
    struct v6_entry *same = entry_of(net, surrogate), *oldest = NULL, *set = set_of(net, surrogate);
    if (same)
        return is_equal(&same->addr, addr) || same->uses == 0 ? same : NULL;
    for (int way = 0; way < V6_WAYS; way++)
        if (set[way].uses == 0 && (!oldest || set[way].entered < oldest->entered))
            oldest = &set[way];
    return oldest;
}

int v6_enter(struct usernet *net, const struct ip6_addr *addr, tcpcore_addr *surrogate)
{
    *surrogate = ip6_surrogate(*addr, net->pairs.secret);
    struct v6_entry *place = place_for(net, addr, *surrogate);
    if (!place)
        return 0;
    place->addr = *addr, place->surrogate = *surrogate, place->entered = ++net->v6_entered;
    return 1;
}

/* A pair of sockets holds its addresses, or lets go of them: so long their surrogates mean nothing else. */
void v6_hold(struct usernet *net, const struct pair *pair, int change)
{
    struct v6_entry *client = ip6_is_surrogate(pair->client) ? entry_of(net, pair->client) : NULL;
    struct v6_entry *server = ip6_is_surrogate(pair->server) ? entry_of(net, pair->server) : NULL;
    if (client)
        client->uses += (uint32_t)change;
    if (server)
        server->uses += (uint32_t)change;
}

/* A message of the router's, which lies at segment_place without its checksum, goes out. */
static void send_message(struct usernet *net, size_t length, struct ip6_addr src, struct ip6_addr dst, uint8_t hops)
{
    uint8_t *message = segment_place(net), *frame = message - IP6_HEADER - TUN_HEADER;
    icmp6_finish(message, length, src, dst);
    memset(frame, 0, TUN_HEADER);
    ip6_write(frame + TUN_HEADER, src, dst, length, IP6_ICMP, hops);
    pass_on_wire(net, frame, TUN_HEADER + IP6_HEADER + length);
}

/* What a neighbour asks on a TAP device: for an Ethernet address, or for a router. Who has no address yet asks in vain, and once more when it
   has one. */
static void answer_neighbour(struct usernet *net, const struct ip6_packet *asks)
{
    static const struct ip6_addr *const OWN[] = {&V6_GATEWAY, &V6_RESOLVER, &V6_ROUTER};
    for (size_t at = 0; at < sizeof OWN / sizeof OWN[0]; at++) {
        size_t length = icmp6_neighbour(segment_place(net), asks, GATEWAY_ETHERNET, *OWN[at]);
        if (length > 0)
            send_message(net, length, *OWN[at], asks->src, IP6_ALL_HOPS);
    }
    if (asks->hops != IP6_ALL_HOPS || !icmp6_is_whole(asks) || asks->segment[0] != ICMP6_ASKS_ROUTER)
        return;
    size_t length = icmp6_router(segment_place(net), GATEWAY_ETHERNET, V6_GATEWAY, net->mtu, V6_RESOLVER);
    send_message(net, length, V6_ROUTER, asks->src, IP6_ALL_HOPS);
}

/* A checksum is looked at here, since ends have that over their surrogates. */
static int is_taken(struct usernet *net, const struct ip6_packet *packet, int vouched)
{
    if (packet->protocol == IP6_ICMP && net->is_tap)
        answer_neighbour(net, packet);
    if (packet->dst.byte[0] == 0xff || (packet->protocol != IP_TCP && packet->protocol != IP_UDP && packet->protocol != IP6_ICMP))
        return 0;
    int is_right = vouched ? packet->protocol != IP6_ICMP || icmp6_is_whole(packet) : ip6_sum(packet) == UINT16_MAX;
    count(net, MALFORMED, !is_right);
    return is_right;
}

/* A piece of a packet, whose header has nothing but the fragment header behind it, is put together with the others as one of IPv4 between the
   surrogates. Whether the packet is whole. */
static int join(struct usernet *net, const uint8_t *bytes, struct ip6_packet *packet)
{
    const uint8_t *at = bytes + IP6_HEADER, *whole;
    size_t told = read16(bytes + 4), length;
    if (bytes[6] != FRAGMENT || told < FRAGMENT_HEADER)
        return 0;
    struct ip_choices choices = {.may_be_cut = 1, .id = (uint16_t)(read16(at + 4) ^ read16(at + 6))};
    memcpy(&packet->src, bytes + 8, sizeof packet->src);
    memcpy(&packet->dst, bytes + 24, sizeof packet->dst);
    tcpcore_addr src = ip6_surrogate(packet->src, net->pairs.secret), dst = ip6_surrogate(packet->dst, net->pairs.secret);
    length = ip_write_chosen(net->text, src, dst, told - FRAGMENT_HEADER, at[0], &choices);
    if (length == 0)
        return 0;
    write16(net->text + 6, (uint16_t)(read16(at + 2) >> 3 | (at[3] & 1 ? MORE : 0)));
    memcpy(net->text + IP_HEADER, at + FRAGMENT_HEADER, told - FRAGMENT_HEADER);
    if (fragments_add(&net->fragments, net->text, length, net->now, &whole, &length) != FRAGMENTS_WHOLE)
        return 0;
    count(net, JOINED, 1);
    packet->protocol = whole[9], packet->hops = bytes[7];
    packet->segment = whole + IP_HEADER, packet->length = length - IP_HEADER;
    return 1;
}

int v6_read(struct usernet *net, const uint8_t *bytes, size_t length, int vouched, struct ip_packet *found, uint8_t *protocol)
{
    struct ip6_packet *packet = &net->v6_packet;
    tcpcore_addr src, dst;
    int answer = net->v6 ? ip6_read(bytes, length, packet) : IP6_BAD_VERSION, is_piece = answer == IP6_FRAGMENT;
    count(net, PIECES, (uint64_t)is_piece);
    if (is_piece ? !join(net, bytes, packet) : answer != IP6_DONE)
        return 0;
    /* The second one may have taken the place of the first. */
    if (!is_taken(net, packet, vouched && !is_piece) || !v6_enter(net, &packet->src, &src) || !v6_enter(net, &packet->dst, &dst) || !v6_find(net, src))
        return 0;
    *found = (struct ip_packet){src, dst, packet->segment, packet->length};
    *protocol = packet->protocol;
    return 1;
}

int v6_read_error(struct usernet *net, struct icmp_error *error)
{
    struct ip6_addr src, dst;
    if (!icmp6_read_error(&net->v6_packet, error, &src, &dst))
        return 0;
    error->src = ip6_surrogate(src, net->pairs.secret);
    error->dst = ip6_surrogate(dst, net->pairs.secret);
    return 1;
}

size_t v6_unreachable(struct usernet *net, const struct pair *key, uint8_t protocol, const uint8_t *front, uint8_t code)
{
    const struct ip6_addr *client = v6_find(net, key->client), *server = v6_find(net, key->server);
    uint8_t in_v6 = code == ICMP_NO_PORT ? ICMP6_NO_PORT : code == ICMP_PROHIBITED ? ICMP6_PROHIBITED : code == ICMP_NO_HOST ? ICMP6_NO_HOST : ICMP6_NO_NET;
    return client && server ? icmp6_unreachable(segment_place(net), in_v6, *client, *server, protocol, front) : 0;
}

/* The device's header counts from the front of the packet (struct virtio_net_hdr). */
static void move_front(struct virtio_net_hdr *front)
{
    front->hdr_len = (uint16_t)(front->hdr_len + IP6_MORE), front->csum_start = (uint16_t)(front->csum_start + IP6_MORE);
    if (front->gso_type == VIRTIO_NET_HDR_GSO_TCPV4)
        front->gso_type = VIRTIO_NET_HDR_GSO_TCPV6;
}

uint8_t *v6_write(struct usernet *net, uint8_t *frame, size_t *length)
{
    uint8_t *ip = frame + TUN_HEADER, *segment = ip + IP_HEADER, protocol = ip[9];
    struct virtio_net_hdr front;
    tcpcore_addr from, to;
    memcpy(&front, frame, TUN_HEADER);
    memcpy(&from, ip + 12, sizeof from);
    memcpy(&to, ip + 16, sizeof to);
    const struct ip6_addr *src = v6_find(net, from), *dst = v6_find(net, to);
    size_t count = *length - TUN_HEADER - IP_HEADER;
    int is_partial = (front.flags & VIRTIO_NET_HDR_F_NEEDS_CSUM) != 0;
    if (!src || !dst)
        return NULL;
    if (protocol == IP6_ICMP)
        icmp6_finish(segment, count, *src, *dst);
    else
        ip6_resum(segment + (protocol == IP_TCP ? AT_CHECKSUM : 6), is_partial, from, to, *src, *dst);
    if (protocol == IP_UDP && read16(segment + 6) == 0)
        write16(segment + 6, UINT16_MAX); /* 0 would say that there is none (RFC 8200, 8.1) */
    if (is_partial)
        move_front(&front);
    frame -= IP6_MORE;
    memcpy(frame, &front, TUN_HEADER);
    *length = TUN_HEADER + ip6_write(frame + TUN_HEADER, *src, *dst, count, protocol, IP6_HOPS);
    return frame;
}
