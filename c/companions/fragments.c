/* Pieces of IPv4 packets (see fragments.h). C beside ip.h, tested and not proved. */
#include "fragments.h"
#include "segment.h"

#include <string.h>

/* Of the header (RFC 791, 3.1), and the bytes that an offset counts. */
enum { MORE = 0x2000, OFFSET = 0x1fff, BLOCK = 8 };

/* A piece as it came. */
struct piece {
    const uint8_t *text;
    uint32_t from, length;
    int is_last;
};

void fragments_init(struct fragments *fragments, struct fragments_packet *packets, uint32_t count)
{
    *fragments = (struct fragments){packets, count};
    for (uint32_t at = 0; at < count; at++)
        packets[at].is_used = 0;
}

/* Whether the packet is a piece: not of nothing, nor behind all that a packet can have, and of whole blocks where more follows. */
static int read_piece(const uint8_t *bytes, size_t length, struct piece *piece)
{
    size_t header = length < IP_HEADER ? 0 : 4 * (size_t)(bytes[0] & 15), total = header < IP_HEADER ? 0 : read16(bytes + 2);
    if (total <= header || total > length)
        return 0;
    uint16_t place = read16(bytes + 6);
    *piece = (struct piece){bytes + header, BLOCK * (uint32_t)(place & OFFSET), (uint32_t)(total - header), !(place & MORE)};
    return piece->from + piece->length <= FRAGMENTS_MOST && (piece->is_last || piece->length % BLOCK == 0);
}

static int is_of(const struct fragments_packet *packet, const uint8_t *bytes)
{
    return packet->is_used && packet->id == read16(bytes + 4) && packet->protocol == bytes[9] && memcmp(&packet->src, bytes + 12, 4) == 0 &&
           memcmp(&packet->dst, bytes + 16, 4) == 0;
}

/* A place that is free at `now`, else the oldest packet's. */
static struct fragments_packet *some_place(const struct fragments *fragments, uint64_t now)
{
    struct fragments_packet *oldest = fragments->packets;
    for (uint32_t at = 0; at < fragments->count; at++) {
        struct fragments_packet *packet = &fragments->packets[at];
        if (!packet->is_used || now - packet->since >= FRAGMENTS_TIME)
            return packet;
        if (packet->since < oldest->since)
            oldest = packet;
    }
    return oldest;
}

/* The packet of this piece, which may be its first one. */
static struct fragments_packet *packet_of(const struct fragments *fragments, const uint8_t *bytes, uint64_t now)
{
    for (uint32_t at = 0; at < fragments->count; at++)
        if (is_of(&fragments->packets[at], bytes) && now - fragments->packets[at].since < FRAGMENTS_TIME)
            return &fragments->packets[at];
    struct fragments_packet *packet = some_place(fragments, now);
    packet->id = read16(bytes + 4), packet->protocol = bytes[9];
    memcpy(&packet->src, bytes + 12, 4);
    memcpy(&packet->dst, bytes + 16, 4);
    memset(packet->came, 0, sizeof packet->came);
    packet->since = now, packet->have = packet->total = packet->end = 0;
    packet->is_used = 1;
    return packet;
}

/* How many of the piece's blocks have come, and how many it has. */
static uint32_t blocks_that_came(const struct fragments_packet *packet, const struct piece *piece, uint32_t *all)
{
    uint32_t count = 0, first = piece->from / BLOCK, end = (piece->from + piece->length + BLOCK - 1) / BLOCK;
    for (uint32_t at = first; at < end; at++)
        count += packet->came[at / 8] >> at % 8 & 1;
    *all = end - first;
    return count;
}

static void put(struct fragments_packet *packet, const struct piece *piece)
{
    uint32_t end = piece->from + piece->length;
    memcpy(packet->bytes + IP_HEADER + piece->from, piece->text, piece->length);
    for (uint32_t at = piece->from / BLOCK; at < (end + BLOCK - 1) / BLOCK; at++)
        packet->came[at / 8] |= (uint8_t)(1 << at % 8);
    packet->have += piece->length;
    packet->end = end > packet->end ? end : packet->end;
    if (piece->is_last)
        packet->total = end;
}

/* Whether a piece ends where the last one says that the packet does, or before; and the last one where none has ended behind. */
static int fits(const struct fragments_packet *packet, const struct piece *piece)
{
    uint32_t end = piece->from + piece->length;
    if (piece->is_last)
        return packet->end <= end && (packet->total == 0 || packet->total == end);
    return packet->total == 0 || end <= packet->total;
}

int fragments_add(struct fragments *fragments, const void *bytes, size_t length, uint64_t now, const uint8_t **whole, size_t *whole_length)
{
    struct piece piece;
    uint32_t all;
    if (!read_piece(bytes, length, &piece))
        return FRAGMENTS_DROPPED;
    struct fragments_packet *packet = packet_of(fragments, bytes, now);
    uint32_t count = blocks_that_came(packet, &piece, &all);
    if (!fits(packet, &piece) || (count != 0 && count != all)) {
        packet->is_used = 0;
        return FRAGMENTS_DROPPED;
    }
    if (count == 0)
        put(packet, &piece);
    if (packet->total == 0 || packet->have != packet->total)
        return FRAGMENTS_WAITING;
    packet->is_used = 0;
    *whole_length = ip_write_any(packet->bytes, packet->src, packet->dst, packet->total, packet->protocol);
    *whole = packet->bytes;
    return FRAGMENTS_WHOLE;
}
