/* Packets above the MTU (see trains.h). C beside tcpcore.h, tested and not proved. */
#include "trains.h"
#include "segment.h"

#include <arpa/inet.h>
#include <linux/virtio_net.h>
#include <string.h>

/* The sum of 16-bit words, added to another and folded: eight bytes at a time in this machine's order, which is turned
   at the end (RFC 1071, 2, B and C). */
static uint16_t sum_of(const uint8_t *bytes, size_t length, uint64_t sum)
{
    uint32_t words[2];
    uint64_t even = 0, odd = 0;
    for (; length >= sizeof words; bytes += sizeof words, length -= sizeof words) {
        memcpy(words, bytes, sizeof words);
        even += words[0];
        odd += words[1];
    }
    memset(words, 0, sizeof words);
    memcpy(words, bytes, length);
    return folded(sum + ntohs(folded(even + odd + words[0] + words[1])));
}

/* The sum over the pseudo-header of a segment of `length` bytes. */
static uint16_t pseudo_sum(tcpcore_addr src, tcpcore_addr dst, size_t length)
{
    uint8_t addresses[8];
    memcpy(addresses, &src, sizeof src);
    memcpy(addresses + sizeof src, &dst, sizeof dst);
    return sum_of(addresses, sizeof addresses, 6 + length);
}

size_t trains_write(uint8_t *frame, tcpcore_addr src, const struct tcpcore_train *train)
{
    struct virtio_net_hdr front = {.flags = VIRTIO_NET_HDR_F_NEEDS_CSUM, .hdr_len = (uint16_t)(IP_HEADER + train->header),
                                   .csum_start = IP_HEADER, .csum_offset = AT_CHECKSUM};
    if (train->segments > 1)
        front.gso_type = VIRTIO_NET_HDR_GSO_TCPV4, front.gso_size = (uint16_t)train->each;
    memcpy(frame, &front, TUN_HEADER);
    return TUN_HEADER + ip_write(frame + TUN_HEADER, src, train->whole.to, (size_t)train->whole.length);
}

const uint8_t *trains_read(const void *bytes, size_t length, size_t *count, int *vouched)
{
    struct virtio_net_hdr front = {0};
    if (length < TUN_HEADER)
        return NULL;
    memcpy(&front, bytes, TUN_HEADER);
    *count = length - TUN_HEADER;
    *vouched = (front.flags & (VIRTIO_NET_HDR_F_NEEDS_CSUM | VIRTIO_NET_HDR_F_DATA_VALID)) != 0;
    return (const uint8_t *)bytes + TUN_HEADER;
}

void trains_sum(uint8_t *segment, size_t length, tcpcore_addr src, tcpcore_addr dst)
{
    write16(segment + AT_CHECKSUM, 0);
    write16(segment + AT_CHECKSUM, (uint16_t)~sum_of(segment, length, pseudo_sum(src, dst, length)));
}
