/* The test of ip6.c and icmp6.c: packets and messages whose sums are made by hand, each fault, and two ends that talk over IPv6. */
#include "../icmp6.h"
#include "../segment.h"
#include "tests/check.h"

#include <string.h>

enum { MSS = 1440, KEEPS = 65535 };

static const struct ip6_addr OWN = {{0xfd, [15] = 2}}, PEER = {{0x20, 1, 0x0d, 0xb8, [14] = 1, [15] = 0x10}};
static const uint8_t SECRET[16] = "a secret of mine";

/* From 2001:db8::110 to fd00::2, 8 bytes of UDP from port 1234 to 53 without text. The checksum by hand: 2001 + 0db8 + 0110 + fd00 + 0002 + 0011
   + 0008 for the pseudo-header, 04d2 + 0035 + 0008 for the datagram: 130f3, folded 30f4, inverted cf0b. */
static const uint8_t DATAGRAM[48] = {0x60, 0, 0, 0, 0, 8, 17, 64, 0x20, 1, 0x0d, 0xb8, 0, 0, 0, 0, 0, 0, 0, 0, 0, 0, 1, 0x10,
                                     0xfd, 0, 0, 0, 0, 0, 0, 0, 0, 0, 0, 0, 0, 0, 0, 2, 0x04, 0xd2, 0, 53, 0, 8, 0xcf, 0x0b};

static int read_packet(const uint8_t *bytes, size_t length, struct ip6_packet *found)
{
    memset(found, 0xee, sizeof *found);
    int answer = ip6_read(bytes, length, found);
    if (answer != IP6_DONE)
        CHECK(found->protocol, 0xee);
    return answer;
}

static void reads(void)
{
    struct ip6_packet found;
    uint8_t bytes[100] = {0};
    memcpy(bytes, DATAGRAM, sizeof DATAGRAM);
    for (size_t length = 0; length < sizeof DATAGRAM; length++)
        CHECK(read_packet(bytes, length, &found), length < 40 ? IP6_SHORT : IP6_BAD_LENGTH);
    CHECK(read_packet(bytes, sizeof bytes, &found), IP6_DONE); /* what lies behind it is the link's */
    CHECK(found.length, 8);
    CHECK(found.segment - bytes, 40);
    CHECK(found.protocol == IP_UDP && found.hops == 64, 1);
    CHECK(memcmp(&found.src, &PEER, 16) || memcmp(&found.dst, &OWN, 16), 0);
    CHECK(ip6_sum(&found), 65535);
    /* Each single bit of addresses and datagram is in the sum. */
    for (size_t bit = 8 * 8; bit < 8 * sizeof DATAGRAM; bit++) {
        bytes[bit / 8] ^= (uint8_t)(1 << bit % 8);
        if (read_packet(bytes, sizeof DATAGRAM, &found) == IP6_DONE)
            CHECK(ip6_sum(&found) != 65535, 1);
        bytes[bit / 8] ^= (uint8_t)(1 << bit % 8);
    }
    bytes[0] = 0x45;
    CHECK(read_packet(bytes, sizeof DATAGRAM, &found), IP6_BAD_VERSION);
}

/* Options for hosts and routers are passed over, and a routing header that has no way left; what is cut is none, and a piece. */
static void extensions(void)
{
    static const struct { uint8_t kind, length, left; size_t all; int wanted; } ROWS[] = {
        {0, 0, 9, 16, IP6_DONE},  {60, 0, 9, 16, IP6_DONE},        {43, 0, 0, 16, IP6_DONE},       {43, 0, 1, 16, IP6_BAD_LENGTH},
        {0, 1, 0, 24, IP6_DONE},  {0, 3, 0, 31, IP6_BAD_LENGTH},   {0, 2, 0, 24, IP6_DONE},        {0, 3, 0, 24, IP6_BAD_LENGTH},
        {44, 0, 0, 16, IP6_FRAGMENT}, {0, 0, 0, 7, IP6_BAD_LENGTH}, {60, 255, 0, 24, IP6_BAD_LENGTH}, {0, 0, 0, 8, IP6_DONE}};
    for (size_t at = 0; at < sizeof ROWS / sizeof ROWS[0]; at++) {
        uint8_t bytes[100] = {0};
        struct ip6_packet found;
        ip6_write(bytes, PEER, OWN, ROWS[at].all, ROWS[at].kind, 64);
        bytes[40] = IP_UDP, bytes[41] = ROWS[at].length, bytes[43] = ROWS[at].left;
        CHECK(read_packet(bytes, 40 + ROWS[at].all, &found), ROWS[at].wanted);
        if (ROWS[at].wanted == IP6_DONE)
            CHECK(found.protocol == IP_UDP && found.length == ROWS[at].all - 8 * (1 + (size_t)ROWS[at].length), 1);
    }
    /* Two of them, one behind the other. */
    uint8_t bytes[64] = {0};
    struct ip6_packet found;
    ip6_write(bytes, PEER, OWN, 24, 0, 64);
    bytes[40] = 60, bytes[48] = IP_TCP;
    CHECK(read_packet(bytes, sizeof bytes, &found), IP6_DONE);
    CHECK(found.protocol == IP_TCP && found.length == 8, 1);
}

static void peers(void)
{
    static const struct { struct ip6_addr addr; int wanted; } ROWS[] = {
        {{{0}}, 0}, {{{[15] = 1}}, 0}, {{{[10] = 0xff, [11] = 0xff, [12] = 127, [15] = 1}}, 0}, {{{[12] = 127, [15] = 1}}, 0},
        {{{0xff, 2, [15] = 1}}, 0}, {{{0xfe, 0x80, [15] = 1}}, 1}, {{{0xfd, [15] = 1}}, 1}, {{{0x20, 1}}, 1}, {{{[11] = 1}}, 1}};
    for (size_t at = 0; at < sizeof ROWS / sizeof ROWS[0]; at++) {
        uint8_t bytes[40];
        struct ip6_packet found;
        CHECK(ip6_may_be_peer(ROWS[at].addr), ROWS[at].wanted);
        ip6_write(bytes, ROWS[at].addr, OWN, 0, IP_TCP, 64);
        CHECK(read_packet(bytes, sizeof bytes, &found), ROWS[at].wanted ? IP6_DONE : IP6_BAD_SOURCE);
    }
}

/* A surrogate is of no host's network, always the same, and another one with each bit of the address and of the secret. */
static void surrogates(void)
{
    tcpcore_addr first = ip6_surrogate(PEER, SECRET), next;
    uint8_t secret[16];
    CHECK(ip6_is_surrogate(first), 1);
    CHECK(ip6_is_surrogate((tcpcore_addr){{0xef, 255, 255, 255}}), 0);
    next = ip6_surrogate(PEER, SECRET);
    CHECK(memcmp(&first, &next, 4), 0);
    for (size_t bit = 0; bit < 128; bit++) {
        struct ip6_addr other = PEER;
        other.byte[bit / 8] ^= (uint8_t)(1 << bit % 8);
        next = ip6_surrogate(other, SECRET);
        CHECK(ip6_is_surrogate(next) && memcmp(&first, &next, 4) != 0, 1);
        memcpy(secret, SECRET, sizeof secret);
        secret[bit / 8] ^= (uint8_t)(1 << bit % 8);
        next = ip6_surrogate(PEER, secret);
        CHECK(memcmp(&first, &next, 4) != 0, 1);
    }
}

struct side {
    tcpcore_end end;
    struct ip6_addr addr;
    tcpcore_addr surrogate;
    uint8_t block[TCPCORE_MEMORY(KEEPS, KEEPS)];
};

static struct side a, b;

static void make(struct side *side, struct ip6_addr addr, uint16_t port)
{
    side->addr = addr;
    side->surrogate = ip6_surrogate(addr, SECRET);
    tcpcore_config config = {.addr = side->surrogate, .port = port, .mss = MSS, .isn = 4000000000u + port, .send_capacity = KEEPS, .recv_capacity = KEEPS,
                             .limit = TCPCORE_LIMIT, .sack = 1};
    side->end = (tcpcore_end)TCPCORE_END_INIT;
    CHECK(tcpcore_new(&side->end, &config, side->block, sizeof side->block), TCPCORE_DONE);
}

/* All that is due goes over IPv6, summed by the end or in part, as `turn` has it. */
static int carry(struct side *from, struct side *to)
{
    static int turn;
    uint8_t packet[IP6_HEADER + TCPCORE_EMIT_ROOM], *segment = packet + IP6_HEADER;
    tcpcore_addr unused;
    struct ip6_packet found;
    size_t length;
    int count = 0;
    for (int is_partial; is_partial = turn++ % 2,
         (is_partial ? tcpcore_emit_partial : tcpcore_emit)(&from->end, segment, TCPCORE_EMIT_ROOM, &unused, &length) == TCPCORE_DONE; count++) {
        ip6_resum(segment + AT_CHECKSUM, is_partial, from->surrogate, to->surrogate, from->addr, to->addr);
        if (is_partial) /* as a device sums it */
            write16(segment + AT_CHECKSUM, (uint16_t)~words_sum(segment, length, 0));
        ip6_write(packet, from->addr, to->addr, length, IP_TCP, 64);
        CHECK(ip6_read(packet, sizeof packet, &found), IP6_DONE);
        CHECK(ip6_sum(&found), 65535);
        CHECK(tcpcore_arrive_vouched(&to->end, from->surrogate, to->surrogate, found.segment, found.length), TCPCORE_DONE);
    }
    return count;
}

static void talk(void)
{
    static uint8_t text[KEEPS], got[KEEPS];
    size_t taken;
    make(&a, OWN, 1);
    make(&b, PEER, 2);
    CHECK(tcpcore_listen(&b.end), TCPCORE_DONE);
    CHECK(tcpcore_connect(&a.end, b.surrogate, 2), TCPCORE_DONE);
    while (carry(&a, &b) + carry(&b, &a) > 0)
        ;
    for (size_t length = 1; length < 20000; length = 3 * length + 1) {
        for (size_t at = 0; at < length; at++)
            text[at] = (uint8_t)(at * at + length);
        CHECK(tcpcore_send(&a.end, text, length, &taken), TCPCORE_DONE);
        CHECK(taken, length);
        while (carry(&a, &b) + carry(&b, &a) > 0)
            ;
        CHECK(tcpcore_receive(&b.end, got, sizeof got, &taken), TCPCORE_DONE);
        CHECK(taken, length);
        CHECK(memcmp(got, text, length), 0);
    }
    CHECK(tcpcore_free(&a.end), TCPCORE_DONE);
    CHECK(tcpcore_free(&b.end), TCPCORE_DONE);
}

static struct ip6_packet message_of(const uint8_t *bytes, size_t length) { return (struct ip6_packet){PEER, OWN, IP6_ICMP, 255, bytes, length}; }

/* Whether a message is an error, and what it means in IPv4's terms. */
static int is_error(uint8_t type, uint8_t code, uint32_t mtu, struct icmp_error *found)
{
    static const uint8_t FRONT[8] = {0x12, 0x34, 0, 53, 1, 2, 3, 4};
    uint8_t message[ICMP6_ROOM];
    struct ip6_addr src, dst;
    CHECK(icmp6_unreachable(message, code, OWN, PEER, IP_TCP, FRONT), ICMP6_ROOM);
    message[0] = type;
    write16(message + 4, (uint16_t)(mtu >> 16));
    write16(message + 6, (uint16_t)mtu);
    write16(message + 12, 1440);
    icmp6_finish(message, sizeof message, PEER, OWN);
    for (size_t length = 0; length < sizeof message; length++) {
        struct ip6_packet cut = message_of(message, length);
        CHECK(icmp6_read_error(&cut, found, &src, &dst), 0);
    }
    struct ip6_packet packet = message_of(message, sizeof message);
    if (!icmp6_read_error(&packet, found, &src, &dst))
        return 0;
    CHECK(memcmp(&src, &OWN, 16) || memcmp(&dst, &PEER, 16), 0);
    CHECK(found->protocol == IP_TCP && found->src_port == 0x1234 && found->dst_port == 53 && found->seq == 0x01020304, 1);
    CHECK(found->length, 1460); /* 1,440 bytes and IPv4's header */
    message[20] ^= 1;
    CHECK(icmp6_read_error(&packet, found, &src, &dst), 0);
    message[20] ^= 1;
    return icmp6_read_error(&packet, found, &src, &dst);
}

static void errors(void)
{
    static const struct { uint8_t type, code, type4, code4; } ROWS[] = {
        {1, 0, ICMP_UNREACHABLE, ICMP_NO_NET}, {1, 1, ICMP_UNREACHABLE, ICMP_PROHIBITED}, {1, 3, ICMP_UNREACHABLE, ICMP_NO_HOST},
        {1, 4, ICMP_UNREACHABLE, ICMP_NO_PORT}, {1, 200, ICMP_UNREACHABLE, ICMP_NO_HOST}, {3, 0, ICMP_EXPIRED, 0}, {4, 0, ICMP_BAD_HEADER, 0},
        {4, 1, ICMP_UNREACHABLE, ICMP_NO_PROTOCOL}};
    struct icmp_error found;
    for (size_t at = 0; at < sizeof ROWS / sizeof ROWS[0]; at++) {
        CHECK(is_error(ROWS[at].type, ROWS[at].code, 0, &found), 1);
        CHECK(found.type == ROWS[at].type4 && found.code == ROWS[at].code4 && found.mtu == 0, 1);
    }
    /* No link of IPv6 takes less than 1,280 bytes. */
    CHECK(is_error(2, 0, 1279, &found), 0);
    CHECK(is_error(2, 0, 1280, &found), 1);
    CHECK(found.type == ICMP_UNREACHABLE && found.code == ICMP_TOO_BIG && found.mtu == 1260, 1);
    CHECK(is_error(2, 0, UINT32_MAX, &found), 1);
    CHECK(found.mtu, 65515);
    for (unsigned type = 5; type < 256; type++)
        CHECK(is_error((uint8_t)type, 0, 1400, &found), 0);
    CHECK(is_error(0, 0, 1400, &found), 0);
}

/* Who asks for fd00::2 is told (RFC 4861, 7.2.4); not who asks for another one, or from afar, or with a wrong checksum. */
static void neighbours(void)
{
    static const struct ethernet_addr ETHERNET = {{2, 0, 0, 0, 0, 15}};
    uint8_t asks[32] = {ICMP6_ASKS_NEIGHBOUR}, out[ICMP6_ROUTER_ROOM];
    memcpy(asks + 8, &OWN, 16);
    asks[24] = 1, asks[25] = 1;
    icmp6_finish(asks, sizeof asks, PEER, OWN);
    for (size_t length = 0; length < sizeof asks; length++) {
        struct ip6_packet cut = message_of(asks, length);
        CHECK(icmp6_neighbour(out, &cut, ETHERNET, OWN), 0);
    }
    struct ip6_packet packet = message_of(asks, sizeof asks);
    CHECK(icmp6_neighbour(out, &packet, ETHERNET, PEER), 0);
    CHECK(icmp6_neighbour(out, &packet, ETHERNET, OWN), ICMP6_NEIGHBOUR_ROOM);
    CHECK(out[0] == ICMP6_NEIGHBOUR && out[4] == 0xe0, 1);
    CHECK(memcmp(out + 8, &OWN, 16), 0);
    CHECK(memcmp(out + 24, "\2\1\2\0\0\0\0\17", 8), 0);
    packet.hops = 254;
    CHECK(icmp6_neighbour(out, &packet, ETHERNET, OWN), 0);
    packet.hops = 255;
    asks[31] ^= 1;
    CHECK(icmp6_neighbour(out, &packet, ETHERNET, OWN), 0);
    /* A router: hop limit 64, 9,000 s; its address, the MTU, the net, and the name server, each option's length in 8 bytes. */
    CHECK(icmp6_router(out, ETHERNET, OWN, 1500, PEER), ICMP6_ROUTER_ROOM);
    CHECK(out[0] == ICMP6_ROUTER && out[4] == 64 && read16(out + 6) == 9000, 1);
    CHECK(memcmp(out + 16, "\1\1\2\0\0\0\0\17\5\1\0\0\0\0\5\334\3\4\100\300", 20), 0);
    CHECK(memcmp(out + 48, &OWN, 8), 0);
    CHECK(memcmp(out + 64, "\31\3\0\0\0\0\43\50", 8), 0);
    CHECK(memcmp(out + 72, &PEER, 16), 0);
    icmp6_finish(out, ICMP6_ROUTER_ROOM, OWN, PEER);
    struct ip6_packet router = {OWN, PEER, IP6_ICMP, 255, out, ICMP6_ROUTER_ROOM};
    CHECK(icmp6_is_whole(&router), 1);
}

int main(void)
{
    reads();
    extensions();
    peers();
    surrogates();
    talk();
    errors();
    neighbours();
    printf("ip6: %d checks\n", checks);
    return 0;
}
