/* What a hostile namespace writes that is no segment (see fuzz.c). */
#include "fuzz.h"

#include <linux/virtio_net.h>
#include <string.h>

/* Bytes that are hardly an IPv4 packet. */
void packets(void)
{
    uint8_t frame[TUN_HEADER + 64] = {0};
    size_t length = draw(65);
    for (size_t at = 0; at < length; at++)
        frame[TUN_HEADER + at] = (uint8_t)draw(256);
    if (draw(2) && length >= IP_HEADER)
        ip_write(frame + TUN_HEADER, CLIENT, (tcpcore_addr){{10, 0, 2, 2}}, draw((uint32_t)length - IP_HEADER + 1));
    put(frame, TUN_HEADER + length);
}

/* Where a datagram or an echo goes: to who answers, to nobody, to who is silent, to the name server, or anywhere. */
static tcpcore_addr somewhere(void)
{
    static const tcpcore_addr SOME_ADDRS[] = {{{10, 0, 2, 2}}, {{10, 0, 2, 3}}, {{198, 51, 100, 1}}, {{127, 0, 0, 1}}, {{224, 0, 0, 1}},
                                              {{255, 255, 255, 255}}};
    uint32_t drawn = draw(7);
    return drawn < 6 ? SOME_ADDRS[drawn] : (tcpcore_addr){{(uint8_t)draw(256), (uint8_t)draw(256), (uint8_t)draw(256), (uint8_t)draw(256)}};
}

/* A packet of another protocol whose bytes lie at frame + TRAINS_FRONT. */
static void go_as(uint8_t *frame, tcpcore_addr to, size_t length, uint8_t protocol, size_t sum_at)
{
    struct virtio_net_hdr front = {0};
    if (draw(4) == 0)
        front.flags = VIRTIO_NET_HDR_F_NEEDS_CSUM, front.csum_start = IP_HEADER, front.csum_offset = (uint16_t)sum_at;
    memcpy(frame, &front, TUN_HEADER);
    ip_write_chosen(frame + TUN_HEADER, CLIENT, to, length, protocol, &(struct ip_choices){.ttl = (uint8_t)(draw(4) ? 0 : 1 + draw(4))});
    put(frame, TRAINS_FRONT + length);
}

/* Datagrams from many ports, whole ones and such whose length or checksum is wrong. */
void datagrams(void)
{
    static const uint16_t PORTS[] = {8090, 53, 9, 0};
    static uint8_t frame[TRAINS_ROOM];
    uint8_t *bytes = frame + TRAINS_FRONT;
    tcpcore_addr to = somewhere();
    size_t text = draw(20) ? draw(100) : draw(1400), length = draw(50) ? UDP_HEADER + text : draw(UDP_HEADER + 1);
    for (size_t at = 0; at < text; at++)
        bytes[UDP_HEADER + at] = (uint8_t)draw(256);
    udp_write(bytes, CLIENT, (uint16_t)draw(65536), to, draw(8) ? PORTS[draw(4)] : (uint16_t)draw(65536), text);
    if (draw(10) == 0)
        bytes[draw(UDP_HEADER)] = (uint8_t)draw(256);
    go_as(frame, to, length, IP_UDP, 6);
}

/* Echoes with many identifiers, and any other message. */
void messages(void)
{
    static uint8_t frame[TRAINS_ROOM];
    uint8_t *bytes = frame + TRAINS_FRONT;
    size_t length = draw(20) ? ICMP_HEADER + draw(100) : draw(ICMP_HEADER + 1);
    for (size_t at = 0; at < ICMP_HEADER + 100; at++)
        bytes[at] = (uint8_t)draw(256);
    if (length >= ICMP_HEADER)
        icmp_make_echo(bytes, length, draw(4) ? ICMP_ECHO : (uint8_t)draw(256), (uint16_t)draw(65536));
    if (draw(10) == 0)
        bytes[draw(ICMP_HEADER)] = (uint8_t)draw(256);
    go_as(frame, somewhere(), length, IP_ICMP, 2);
}

/* ICMP errors of each kind about segments that some flow's server has sent, or may have: code 4 with any MTU, and anything quoted. */
void errors(void)
{
    static uint8_t frame[TRAINS_ROOM];
    static const uint8_t TYPES[] = {ICMP_UNREACHABLE, ICMP_UNREACHABLE, ICMP_UNREACHABLE, ICMP_EXPIRED, ICMP_BAD_HEADER, ICMP_QUENCH};
    uint8_t *bytes = frame + TRAINS_FRONT, quoted[60] = {0};
    const struct flow *flow = some_flow(OPEN);
    uint32_t seq = flow->ack - (draw(4) ? draw(3000) : draw32());
    if (flow->phase != OPEN || draw(2)) { /* so that something is in flight */
        windows();
        return;
    }
    ip_write_any(quoted, flow->server, CLIENT, draw(2) ? 1480 : draw(1481), draw(16) ? IP_TCP : (uint8_t)draw(256));
    write16(quoted + IP_HEADER, flow->server_port);
    write16(quoted + IP_HEADER + 2, (uint16_t)(FIRST + (flow - flows)));
    write16(quoted + IP_HEADER + 4, (uint16_t)(seq >> 16));
    write16(quoted + IP_HEADER + 6, (uint16_t)seq);
    for (uint32_t left = draw(4) ? 0 : draw(4); left > 0; left--)
        quoted[draw(sizeof quoted)] = (uint8_t)draw(256);
    size_t length = icmp_unreachable(bytes, draw(2) ? ICMP_TOO_BIG : (uint8_t)draw(16), quoted, draw(10) ? sizeof quoted : draw(sizeof quoted));
    bytes[0] = TYPES[draw(sizeof TYPES)];
    write16(bytes + 6, (uint16_t)(draw(2) ? draw(1500) : draw(65536)));
    write16(bytes + 2, 0);
    write16(bytes + 2, (uint16_t)~words_sum(bytes, length, 0));
    go_as(frame, flow->server, length, IP_ICMP, 2);
}

/* A piece that begins at so many times 8 bytes. */
static void go_piece(const uint8_t *text, size_t length, tcpcore_addr to, uint8_t protocol, uint16_t id, uint32_t place, int is_last)
{
    static uint8_t frame[TRAINS_ROOM];
    uint8_t *packet = frame + TUN_HEADER;
    struct ip_choices choices = {.may_be_cut = 1, .id = id};
    memcpy(frame + TRAINS_FRONT, text, length);
    ip_write_chosen(packet, CLIENT, to, length, protocol, &choices);
    write16(packet + 6, (uint16_t)((is_last ? 0 : 0x2000) | (place & 0x1fff)));
    write16(packet + 10, 0);
    write16(packet + 10, (uint16_t)~words_sum(packet, IP_HEADER, 0));
    put(frame, TRAINS_FRONT + length);
}

/* Pieces of packets: in order, with some lost, doubled or changed; or of few packets, overlapping, of nothing, past the end of all. */
void pieces(void)
{
    static uint8_t text[8000];
    static const uint8_t PROTOCOLS[] = {IP_UDP, IP_UDP, IP_TCP, IP_ICMP, 99};
    uint8_t protocol = PROTOCOLS[draw(sizeof PROTOCOLS)];
    tcpcore_addr to = somewhere();
    uint16_t id = (uint16_t)draw(draw(2) ? 4 : 65536);
    size_t length = draw(4) ? 8 * (size_t)draw(100) : draw(1400);
    for (size_t at = 0; at < length; at++)
        text[at] = (uint8_t)draw(256);
    if (draw(2)) {
        go_piece(text, length, to, protocol, id, draw(4) ? draw(40) : draw(8192), draw(3) == 0);
        return;
    }
    length = UDP_HEADER + draw(sizeof text - UDP_HEADER);
    if (protocol == IP_UDP)
        udp_write(text, CLIENT, (uint16_t)draw(65536), to, 8090, length - UDP_HEADER);
    else
        icmp_make_echo(text, length, ICMP_ECHO, (uint16_t)draw(65536));
    size_t each = 8 * (1 + (size_t)draw(150));
    for (size_t from = 0; from < length; from += each)
        for (uint32_t left = draw(30) ? 1 : draw(3); left > 0; left--) {
            size_t count = length - from < each ? length - from : each;
            go_piece(text + from, count, to, protocol, id, (uint32_t)from / 8, from + count == length);
        }
}

/* An address of IPv6: one that answers, names, a neighbour's, an IPv4 address in another form, many hosts, one of few or any. */
static struct ip6_addr somewhere6(void)
{
    static const struct ip6_addr SOME_ADDRS[] = {
        {{0xfd, [15] = 2}}, {{0xfd, [15] = 3}}, {{0xfe, 0x80, [15] = 2}}, {{[10] = 0xff, [11] = 0xff, [12] = 127, [15] = 1}},
        {{0xff, 2, [15] = 1}}, {{[15] = 1}}, {{0xfd, [15] = 2}}};
    uint32_t drawn = draw(10);
    struct ip6_addr addr = {{0x20, 1, [14] = (uint8_t)draw(256), [15] = (uint8_t)draw(256)}};
    if (drawn < 7)
        return SOME_ADDRS[drawn];
    for (int at = 2; drawn == 7 && at < 16; at++)
        addr.byte[at] = (uint8_t)draw(256);
    return addr;
}

/* What a message of ICMPv6 is made of: an echo, an error that quotes a segment, a question to neighbours, or anything; its length. */
static size_t draw_message(uint8_t *out)
{
    static const uint8_t TYPES[] = {1, 2, 2, 3, 4, 128, 128, 129, 133, 135, 135, 136};
    uint8_t quoted[8];
    struct ip6_addr one = somewhere6(), other = somewhere6();
    for (size_t at = 0; at < sizeof quoted; at++)
        quoted[at] = (uint8_t)draw(256);
    size_t length = icmp6_unreachable(out, (uint8_t)draw(8), one, other, draw(4) ? IP_TCP : (uint8_t)draw(256), quoted);
    out[0] = draw(8) ? TYPES[draw(sizeof TYPES)] : (uint8_t)draw(256);
    write16(out + 6, (uint16_t)(draw(2) ? draw(2000) : draw(65536)));
    if (out[0] == 135)
        memcpy(out + 8, &one, sizeof one);
    return draw(4) ? length : 8 + draw((uint32_t)length - 8);
}

/* A segment's header with a SYN or without, or anything; its length. */
static size_t draw_segment(uint8_t *out)
{
    static const uint16_t PORTS[] = {8081, 8082, 9, 53};
    size_t length = SEGMENT_HEADER + (draw(2) ? 0 : draw(100));
    for (size_t at = 0; at < length; at++)
        out[at] = (uint8_t)draw(256);
    write16(out, (uint16_t)(FIRST + draw(64)));
    write16(out + 2, PORTS[draw(4)]);
    if (draw(4))
        out[AT_OFFSET] = SEGMENT_HEADER / 4 << 4, out[AT_BITS] = draw(2) ? SYN : (uint8_t)draw(32);
    return length;
}

/* Packets of IPv6: segments, datagrams, messages, behind extension headers or not, pieces, and sums that are wrong or left out. */
void sixes(void)
{
    static uint8_t frame[TUN_HEADER + IP6_HEADER + 1000];
    static const uint8_t PROTOCOLS[] = {IP_TCP, IP_TCP, IP_UDP, IP6_ICMP, IP6_ICMP}, EXTENSIONS[] = {0, 60, 43, 44};
    struct virtio_net_hdr front = {0};
    struct ip6_addr src = draw(8) ? (struct ip6_addr){{0xfd, [14] = 2, [15] = (uint8_t)draw(8)}} : somewhere6(), dst = somewhere6();
    uint8_t protocol = PROTOCOLS[draw(sizeof PROTOCOLS)], *packet = frame + TUN_HEADER, *at = packet + IP6_HEADER;
    size_t extension = draw(8) ? 0 : 8 * (1 + (size_t)draw(3)), length = protocol == IP6_ICMP ? draw_message(at + extension) : draw_segment(at + extension);
    struct ip6_packet made = {src, dst, protocol, 0, at + extension, length};
    uint8_t *sum = at + extension + (protocol == IP_TCP ? AT_CHECKSUM : protocol == IP_UDP ? 6 : 2);
    if (protocol == IP_UDP)
        write16(at + extension + 4, (uint16_t)(draw(8) ? length : draw(65536)));
    write16(sum, 0);
    write16(sum, (uint16_t)~ip6_sum(&made));
    if (draw(10) == 0)
        *sum ^= 0x55;
    if (draw(8) == 0)
        front.flags = VIRTIO_NET_HDR_F_NEEDS_CSUM, front.csum_start = IP6_HEADER, front.csum_offset = (uint16_t)(sum - (at + extension));
    ip6_write(packet, src, dst, extension + length, extension ? EXTENSIONS[draw(4)] : protocol,
              draw(2) ? IP6_ALL_HOPS : draw(4) ? IP6_HOPS : (uint8_t)draw(4));
    if (extension)
        memset(at, 0, extension), at[0] = protocol, at[1] = (uint8_t)(draw(8) ? extension / 8 - 1 : draw(256));
    if (draw(20) == 0)
        packet[draw(IP6_HEADER)] = (uint8_t)draw(256);
    memcpy(frame, &front, TUN_HEADER);
    put(frame, TUN_HEADER + IP6_HEADER + extension + length - (draw(16) ? 0 : draw((uint32_t)length)));
}

/* One piece of an IPv6 packet, whose place counts 8 bytes. */
static void go_piece6(const struct ip6_packet *whole, size_t from, size_t length, uint32_t place, uint16_t id, int is_last)
{
    static uint8_t frame[TUN_HEADER + IP6_HEADER + 8 + 8000];
    uint8_t *at = frame + TUN_HEADER + IP6_HEADER;
    memset(frame, 0, TUN_HEADER);
    memset(at, 0, 8);
    at[0] = whole->protocol;
    write16(at + 2, (uint16_t)(place << 3 | !is_last));
    write16(at + 6, id);
    memcpy(at + 8, whole->segment + from, length);
    ip6_write(frame + TUN_HEADER, whole->src, whole->dst, 8 + length, 44, IP6_HOPS);
    if (draw(50) == 0)
        frame[TUN_HEADER + draw(IP6_HEADER + 8)] = (uint8_t)draw(256);
    put(frame, TUN_HEADER + IP6_HEADER + 8 + length - (draw(50) ? 0 : draw((uint32_t)length + 8)));
}

/* The same as pieces of IPv6: in order, with some lost or doubled; or of few packets, anywhere. */
void pieces6(void)
{
    static uint8_t text[8000];
    static const uint8_t PROTOCOLS[] = {IP_UDP, IP_UDP, IP6_ICMP, IP_TCP, 44, 99};
    struct ip6_packet whole = {{{0xfd, [14] = 2, [15] = (uint8_t)draw(4)}}, somewhere6(), PROTOCOLS[draw(sizeof PROTOCOLS)], 0, text, 0};
    uint16_t id = (uint16_t)draw(draw(2) ? 4 : 65536);
    int is_any = draw(2) == 0;
    whole.length = is_any ? 8 * (size_t)draw(100) : UDP_HEADER + draw(sizeof text - UDP_HEADER);
    for (size_t at = 0; at < whole.length; at++)
        text[at] = (uint8_t)draw(256);
    if (is_any) {
        go_piece6(&whole, 0, whole.length, draw(4) ? draw(40) : draw(8192), id, draw(3) == 0);
        return;
    }
    size_t each = 8 * (1 + (size_t)draw(150)), sum = whole.protocol == IP_UDP ? 6 : 2;
    write16(text + 2, 8090);
    write16(text + 4, (uint16_t)whole.length);
    if (whole.protocol == IP6_ICMP)
        text[0] = 128, text[1] = 0;
    write16(text + sum, 0);
    write16(text + sum, (uint16_t)~ip6_sum(&whole));
    for (size_t from = 0; from < whole.length; from += each)
        for (uint32_t left = draw(30) ? 1 : draw(3); left > 0; left--) {
            size_t count = whole.length - from < each ? whole.length - from : each;
            go_piece6(&whole, from, count, (uint32_t)from / 8, id, from + count == whole.length);
        }
}
