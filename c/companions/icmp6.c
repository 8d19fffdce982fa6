/* ICMPv6 messages (see icmp6.h). C beside ip6.h, tested and not proved. */
#include "icmp6.h"
#include "segment.h"

#include <string.h>

/* Of messages (RFC 4443, 2.1; RFC 4861, 4). */
enum { AT_CODE = 1, AT_SUM = 2, AT_MTU = 4, AT_TARGET = 8, QUOTED = 8, ALL_ONES = 0xffff };
/* Options of messages to neighbours, and what a neighbour's says of itself. */
enum { OF_SENDER = 1, OF_TARGET = 2, OF_PREFIX = 3, OF_MTU = 5, OF_RESOLVER = 25, IS_ROUTER = 0x80, IS_ASKED = 0x40, OVERRIDES = 0x20 };
/* The seconds for which a router's word holds, the most that it may (RFC 4861, 6.2.1). */
enum { LIFETIME = 9000 };

int icmp6_is_whole(const struct ip6_packet *packet) { return packet->length >= ICMP_HEADER && ip6_sum(packet) == ALL_ONES; }

void icmp6_finish(uint8_t *message, size_t length, struct ip6_addr src, struct ip6_addr dst)
{
    struct ip6_packet packet = {src, dst, IP6_ICMP, 0, message, length};
    write16(message + AT_SUM, 0);
    write16(message + AT_SUM, (uint16_t)~ip6_sum(&packet));
}

/* What a message means in IPv4's terms; whether it is an error. */
static int translate(const uint8_t *message, struct icmp_error *error)
{
    static const uint8_t CODES[] = {ICMP_NO_NET, ICMP_PROHIBITED, ICMP_NO_HOST, ICMP_NO_HOST, ICMP_NO_PORT, ICMP_PROHIBITED, ICMP_NO_NET};
    uint32_t mtu = read32(message + AT_MTU);
    *error = (struct icmp_error){.type = ICMP_UNREACHABLE, .code = message[AT_CODE]};
    if (message[0] == ICMP6_UNREACHABLE)
        error->code = message[AT_CODE] < sizeof CODES ? CODES[message[AT_CODE]] : ICMP_NO_HOST;
    else if (message[0] == ICMP6_TOO_BIG)
        error->code = ICMP_TOO_BIG, error->mtu = (uint16_t)((mtu < ALL_ONES ? mtu : ALL_ONES) - IP6_MORE);
    else if (message[0] == ICMP6_EXPIRED)
        error->type = ICMP_EXPIRED;
    else if (message[0] == ICMP6_BAD_HEADER && message[AT_CODE] == 1) /* no such protocol */
        error->code = ICMP_NO_PROTOCOL;
    else
        error->type = ICMP_BAD_HEADER;
    return message[0] >= ICMP6_UNREACHABLE && message[0] <= ICMP6_BAD_HEADER && (message[0] != ICMP6_TOO_BIG || mtu >= IP6_LEAST_MTU);
}

/* A segment that an end here has sent has no extension headers. */
int icmp6_read_error(const struct ip6_packet *packet, struct icmp_error *found, struct ip6_addr *src, struct ip6_addr *dst)
{
    const uint8_t *quoted = packet->segment + ICMP_HEADER, *front = quoted + IP6_HEADER;
    struct icmp_error error;
    if (packet->length < ICMP_HEADER + IP6_HEADER + QUOTED || !icmp6_is_whole(packet) || !translate(packet->segment, &error) || quoted[0] >> 4 != 6)
        return 0;
    error.protocol = quoted[6];
    error.src_port = read16(front), error.dst_port = read16(front + 2), error.seq = read32(front + 4);
    uint32_t length = (uint32_t)read16(quoted + 4) + IP_HEADER;
    error.length = (uint16_t)(length < ALL_ONES ? length : ALL_ONES);
    memcpy(src, quoted + 8, sizeof *src);
    memcpy(dst, quoted + 24, sizeof *dst);
    *found = error;
    return 1;
}

size_t icmp6_unreachable(uint8_t *out, uint8_t code, struct ip6_addr src, struct ip6_addr dst, uint8_t protocol, const uint8_t *front)
{
    memset(out, 0, ICMP_HEADER);
    out[0] = ICMP6_UNREACHABLE;
    out[AT_CODE] = code;
    ip6_write(out + ICMP_HEADER, src, dst, QUOTED, protocol, IP6_HOPS);
    memcpy(out + ICMP_HEADER + IP6_HEADER, front, QUOTED);
    return ICMP6_ROOM;
}

/* An option with an Ethernet address (RFC 4861, 4.6.1); its length. */
static size_t write_address(uint8_t *out, uint8_t kind, struct ethernet_addr addr)
{
    out[0] = kind, out[1] = 1;
    memcpy(out + 2, &addr, sizeof addr);
    return 8;
}

/* Who asks whether anybody has an address, before it takes it, has none itself. */
size_t icmp6_neighbour(uint8_t *out, const struct ip6_packet *asks, struct ethernet_addr own, struct ip6_addr addr)
{
    const uint8_t *message = asks->segment;
    if (asks->length < AT_TARGET + sizeof addr || asks->hops != IP6_ALL_HOPS || !icmp6_is_whole(asks) || message[0] != ICMP6_ASKS_NEIGHBOUR ||
        message[AT_CODE] != 0 || memcmp(message + AT_TARGET, &addr, sizeof addr) != 0)
        return 0;
    memset(out, 0, AT_TARGET);
    out[0] = ICMP6_NEIGHBOUR;
    out[4] = IS_ROUTER | IS_ASKED | OVERRIDES;
    memcpy(out + AT_TARGET, &addr, sizeof addr);
    return AT_TARGET + sizeof addr + write_address(out + AT_TARGET + sizeof addr, OF_TARGET, own);
}

size_t icmp6_router(uint8_t *out, struct ethernet_addr own, struct ip6_addr net, uint32_t mtu, struct ip6_addr resolver)
{
    uint8_t *at = out + 16;
    memset(out, 0, ICMP6_ROUTER_ROOM);
    out[0] = ICMP6_ROUTER;
    out[4] = IP6_HOPS;
    write16(out + 6, LIFETIME);
    at += write_address(at, OF_SENDER, own);
    at[0] = OF_MTU, at[1] = 1;
    write16(at + 4, (uint16_t)(mtu >> 16));
    write16(at + 6, (uint16_t)mtu);
    at += 8;
    /* The net's hosts are on this link, and make their addresses themselves; both for as long as can be (RFC 4861, 4.6.2). */
    at[0] = OF_PREFIX, at[1] = 4, at[2] = 64, at[3] = 0xc0;
    memset(at + 4, 0xff, 8);
    memcpy(at + 16, &net, 8);
    at += 32;
    at[0] = OF_RESOLVER, at[1] = 3;
    write16(at + 6, LIFETIME);
    memcpy(at + 8, &resolver, sizeof resolver);
    return ICMP6_ROUTER_ROOM;
}
