/* UDP datagrams (see udp.h). C beside ip.h, tested and not proved. */
#include "udp.h"
#include "segment.h"

/* Of the header (RFC 768). */
enum { AT_LENGTH = 4, AT_SUM = 6, ALL_ONES = 0xffff };

/* The sum of the pseudo-header and of the datagram. */
static uint16_t sum(const uint8_t *bytes, size_t length, tcpcore_addr src, tcpcore_addr dst)
{
    uint64_t addresses = (uint64_t)read16(src.byte) + read16(src.byte + 2) + read16(dst.byte) + read16(dst.byte + 2);
    return words_sum(bytes, length, addresses + IP_UDP + length);
}

int udp_read(const struct ip_packet *packet, int vouched, struct udp *found)
{
    const uint8_t *bytes = packet->segment;
    if (packet->length < UDP_HEADER)
        return UDP_SHORT;
    size_t length = read16(bytes + AT_LENGTH);
    if (length < UDP_HEADER || length > packet->length)
        return UDP_BAD_LENGTH;
    /* A checksum of zero says that there is none. */
    if (!vouched && read16(bytes + AT_SUM) != 0 && sum(bytes, length, packet->src, packet->dst) != ALL_ONES)
        return UDP_BAD_CHECKSUM;
    *found = (struct udp){read16(bytes), read16(bytes + 2), bytes + UDP_HEADER, length - UDP_HEADER};
    return UDP_DONE;
}

size_t udp_write(uint8_t *out, tcpcore_addr src, uint16_t src_port, tcpcore_addr dst, uint16_t dst_port, size_t length)
{
    write16(out, src_port);
    write16(out + 2, dst_port);
    write16(out + AT_LENGTH, (uint16_t)(length + UDP_HEADER));
    write16(out + AT_SUM, 0);
    uint16_t inverted = (uint16_t)~sum(out, length + UDP_HEADER, src, dst);
    write16(out + AT_SUM, inverted ? inverted : ALL_ONES);
    return length + UDP_HEADER;
}
