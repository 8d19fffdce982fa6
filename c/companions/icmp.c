/* ICMP messages (see icmp.h). C beside ip.h, tested and not proved. */
#include "icmp.h"
#include "segment.h"

#include <string.h>

/* Of a message (RFC 792). */
enum { AT_CODE = 1, AT_SUM = 2, AT_ID = 4, AT_MTU = 6, ALL_ONES = 0xffff };

/* The bytes behind an IPv4 header that an error quotes at least, and those that say how a packet was cut (RFC 792; RFC 791, 3.1). */
enum { QUOTED = 8, OFFSET = 0x1fff };

static void finish(uint8_t *message, size_t length)
{
    write16(message + AT_SUM, 0);
    write16(message + AT_SUM, (uint16_t)~words_sum(message, length, 0));
}

int icmp_is_whole(const struct ip_packet *packet)
{
    return packet->length >= ICMP_HEADER && words_sum(packet->segment, packet->length, 0) == ALL_ONES;
}

uint16_t icmp_id(const uint8_t *message) { return read16(message + AT_ID); }

void icmp_make_echo(uint8_t *message, size_t length, uint8_t type, uint16_t id)
{
    message[0] = type;
    message[AT_CODE] = 0;
    write16(message + AT_ID, id);
    finish(message, length);
}

int icmp_read_error(const struct ip_packet *packet, struct icmp_error *found)
{
    const uint8_t *message = packet->segment, *quoted = message + ICMP_HEADER;
    if (!icmp_is_whole(packet) || packet->length < ICMP_HEADER + IP_HEADER + QUOTED)
        return 0;
    size_t header = 4 * (size_t)(quoted[0] & 15);
    if ((message[0] != ICMP_UNREACHABLE && message[0] != ICMP_EXPIRED && message[0] != ICMP_BAD_HEADER) || quoted[0] >> 4 != 4 ||
        header < IP_HEADER || packet->length < ICMP_HEADER + header + QUOTED || read16(quoted + 2) < header + QUOTED ||
        (read16(quoted + 6) & OFFSET) != 0)
        return 0;
    const uint8_t *front = quoted + header;
    struct icmp_error error = {.type = message[0], .code = message[AT_CODE], .protocol = quoted[9], .src_port = read16(front),
                               .dst_port = read16(front + 2), .seq = read32(front + 4), .length = read16(quoted + 2)};
    memcpy(&error.src, quoted + 12, sizeof error.src);
    memcpy(&error.dst, quoted + 16, sizeof error.dst);
    if (error.type == ICMP_UNREACHABLE && error.code == ICMP_TOO_BIG)
        error.mtu = read16(message + AT_MTU);
    *found = error;
    return 1;
}

size_t icmp_unreachable(uint8_t *out, uint8_t code, const uint8_t *packet, size_t length)
{
    size_t header = length < IP_HEADER ? length : 4 * (size_t)(packet[0] & 15), kept = header + QUOTED < length ? header + QUOTED : length;
    memset(out, 0, ICMP_HEADER);
    out[0] = ICMP_UNREACHABLE;
    out[AT_CODE] = code;
    memcpy(out + ICMP_HEADER, packet, kept);
    finish(out, ICMP_HEADER + kept);
    return ICMP_HEADER + kept;
}
