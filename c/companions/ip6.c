/* The IPv6 header, and addresses in IPv6's place (see ip6.h). C over tcpcore.h, tested and not proved. */
#include "ip6.h"
#include "secret.h"
#include "segment.h"

#include <string.h>

/* Of the header and its extensions (RFC 8200, 3 and 4). */
enum { AT_LENGTH = 4, AT_PROTOCOL = 6, AT_HOPS = 7, AT_SRC = 8, AT_DST = 24, MOST = 65535, EXTENSION = 8 };
enum { FOR_ROUTERS = 0, ROUTING = 43, FRAGMENT = 44, FOR_HOSTS = 60 };

int ip6_may_be_peer(struct ip6_addr addr)
{
    static const uint8_t NONE[12] = {0}, OF_IPV4[12] = {[10] = 0xff, [11] = 0xff};
    return addr.byte[0] != 0xff && memcmp(addr.byte, NONE, sizeof NONE) != 0 && memcmp(addr.byte, OF_IPV4, sizeof OF_IPV4) != 0;
}

/* Passes over extension headers; whether none is cut off, or asks for what isn't done here. */
static int pass_extensions(struct ip6_packet *packet)
{
    while (packet->protocol == FOR_ROUTERS || packet->protocol == FOR_HOSTS || packet->protocol == ROUTING) {
        size_t length = packet->length < EXTENSION ? MOST : EXTENSION * (1 + (size_t)packet->segment[1]);
        if (length > packet->length || (packet->protocol == ROUTING && packet->segment[3] != 0))
            return 0;
        packet->protocol = packet->segment[0];
        packet->segment += length;
        packet->length -= length;
    }
    return 1;
}

int ip6_read(const void *bytes, size_t length, struct ip6_packet *packet)
{
    const uint8_t *at = bytes;
    if (length < IP6_HEADER)
        return IP6_SHORT;
    if (at[0] >> 4 != 6)
        return IP6_BAD_VERSION;
    struct ip6_packet found = {.protocol = at[AT_PROTOCOL], .hops = at[AT_HOPS], .segment = at + IP6_HEADER, .length = read16(at + AT_LENGTH)};
    if (found.length > length - IP6_HEADER || !pass_extensions(&found))
        return IP6_BAD_LENGTH;
    memcpy(&found.src, at + AT_SRC, sizeof found.src);
    memcpy(&found.dst, at + AT_DST, sizeof found.dst);
    if (!ip6_may_be_peer(found.src))
        return IP6_BAD_SOURCE;
    if (found.protocol == FRAGMENT)
        return IP6_FRAGMENT;
    *packet = found;
    return IP6_DONE;
}

size_t ip6_write(void *out, struct ip6_addr src, struct ip6_addr dst, size_t length, uint8_t protocol, uint8_t hops)
{
    uint8_t *at = out;
    if (length > MOST)
        return 0;
    memset(at, 0, IP6_HEADER);
    at[0] = 6 << 4;
    write16(at + AT_LENGTH, (uint16_t)length);
    at[AT_PROTOCOL] = protocol;
    at[AT_HOPS] = hops;
    memcpy(at + AT_SRC, &src, sizeof src);
    memcpy(at + AT_DST, &dst, sizeof dst);
    return length + IP6_HEADER;
}

static uint16_t sum_of(const void *addr, size_t length) { return words_sum(addr, length, 0); }

uint16_t ip6_sum(const struct ip6_packet *packet)
{
    uint64_t front = (uint64_t)sum_of(&packet->src, sizeof packet->src) + sum_of(&packet->dst, sizeof packet->dst) + packet->protocol;
    return words_sum(packet->segment, packet->length, front + packet->length);
}

tcpcore_addr ip6_surrogate(struct ip6_addr addr, const uint8_t secret[16])
{
    uint64_t hash = secret_hash(secret, addr.byte, sizeof addr.byte);
    return (tcpcore_addr){{(uint8_t)(0xf0 | (hash >> 24 & 15)), (uint8_t)(hash >> 16), (uint8_t)(hash >> 8), (uint8_t)hash}};
}

int ip6_is_surrogate(tcpcore_addr addr) { return addr.byte[0] >= 0xf0; }

/* RFC 1624, 3: a sum loses what is taken away as it gains the complement of that. */
void ip6_resum(uint8_t *sum, int is_partial, tcpcore_addr src_surrogate, tcpcore_addr dst_surrogate, struct ip6_addr src, struct ip6_addr dst)
{
    uint32_t found = is_partial ? read16(sum) : (uint16_t)~read16(sum);
    found += (uint32_t)(MOST - sum_of(&src_surrogate, sizeof src_surrogate)) + (uint32_t)(MOST - sum_of(&dst_surrogate, sizeof dst_surrogate));
    found += (uint32_t)sum_of(&src, sizeof src) + sum_of(&dst, sizeof dst);
    while (found >> 16)
        found = (found & 0xffff) + (found >> 16);
    write16(sum, (uint16_t)(is_partial ? found : ~found));
}
