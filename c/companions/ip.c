/* The IPv4 header (see ip.h). C beside tcpcore.h, tested and not proved. */
#include "ip.h"
#include "segment.h"

#include <string.h>

/* Of the header (RFC 791, 3.1). */
enum { TIME_TO_LIVE = 64, DONT_FRAGMENT = 0x4000, MORE_OR_OFFSET = 0x3fff, MOST = 65535 };

static uint32_t number(tcpcore_addr addr) { return read32(addr.byte); }

int ip_may_be_peer(struct ip_net own, tcpcore_addr addr)
{
    uint32_t theirs = number(addr), ours = number(own.addr);
    uint32_t host = own.prefix >= 32 ? 0 : UINT32_MAX >> own.prefix;
    if (theirs >> 24 == 0 || theirs >> 24 == 127 || theirs >> 24 >= 224 || theirs == ours)
        return 0;
    /* A network of two addresses has no broadcast (RFC 3021, 2.1). */
    int is_near = (theirs & ~host) == (ours & ~host);
    return !is_near || own.prefix > 30 || ((theirs & host) != 0 && (theirs & host) != host);
}

int ip_read_any(struct ip_net own, const void *bytes, size_t length, struct ip_packet *packet, uint8_t *protocol)
{
    const uint8_t *at = bytes;
    struct ip_packet found;
    if (length < IP_HEADER)
        return IP_SHORT;
    if (at[0] >> 4 != 4)
        return IP_BAD_VERSION;
    size_t header = 4 * (size_t)(at[0] & 15), total = read16(at + 2);
    if (header < IP_HEADER || total < header || total > length)
        return IP_BAD_LENGTH;
    if (words_sum(at, header, 0) != MOST)
        return IP_BAD_CHECKSUM;
    memcpy(&found.src, at + 12, 4);
    memcpy(&found.dst, at + 16, 4);
    if (memcmp(&found.dst, &own.addr, 4) != 0)
        return IP_NOT_MINE;
    if (!ip_may_be_peer(own, found.src))
        return IP_BAD_SOURCE;
    if (read16(at + 6) & MORE_OR_OFFSET)
        return IP_FRAGMENT;
    found.segment = at + header;
    found.length = total - header;
    *packet = found;
    *protocol = at[9];
    return IP_DONE;
}

int ip_read(struct ip_net own, const void *bytes, size_t length, struct ip_packet *packet)
{
    struct ip_packet found;
    uint8_t protocol;
    int answer = ip_read_any(own, bytes, length, &found, &protocol);
    if (answer != IP_DONE)
        return answer;
    if (protocol != IP_TCP)
        return IP_OTHER_PROTOCOL;
    *packet = found;
    return IP_DONE;
}

size_t ip_write(void *out, tcpcore_addr src, tcpcore_addr dst, size_t length)
{
    return ip_write_any(out, src, dst, length, IP_TCP);
}

size_t ip_write_any(void *out, tcpcore_addr src, tcpcore_addr dst, size_t length, uint8_t protocol)
{
    return ip_write_chosen(out, src, dst, length, protocol, &(struct ip_choices){0});
}

/* Writes a word of the header; answers it for the sum. */
static uint16_t put16(uint8_t *at, uint16_t word)
{
    write16(at, word);
    return word;
}

size_t ip_write_chosen(void *out, tcpcore_addr src, tcpcore_addr dst, size_t length, uint8_t protocol, const struct ip_choices *choices)
{
    uint8_t *at = out;
    if (length > MOST - IP_HEADER)
        return 0;
    uint64_t sum = put16(at, (uint16_t)((4 << 4 | IP_HEADER / 4) << 8 | choices->services));
    sum += put16(at + 2, (uint16_t)(length + IP_HEADER));
    sum += put16(at + 4, choices->may_be_cut ? choices->id : 0);
    sum += put16(at + 6, choices->may_be_cut ? 0 : DONT_FRAGMENT);
    sum += put16(at + 8, (uint16_t)((choices->ttl ? choices->ttl : TIME_TO_LIVE) << 8 | protocol));
    memcpy(at + 12, &src, 4);
    memcpy(at + 16, &dst, 4);
    write16(at + 10, (uint16_t)(MOST - folded(sum + number(src) + number(dst))));
    return length + IP_HEADER;
}
