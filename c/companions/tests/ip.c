/* The test of ip.c: packets written out by hand, each fault, and every source that RFC 1122, 3.2.1.3, forbids. */
#include "../ip.h"
#include "tests/check.h"

#include <string.h>

static const struct ip_net OWN = {{{172, 16, 10, 12}}, 24};
static const tcpcore_addr PEER = {{172, 16, 10, 99}};

/* From 172.16.10.99 to 172.16.10.12, 40 bytes, not to be fragmented, time to live 64, TCP. The checksum by hand:
   4500 + 0028 + 0000 + 4000 + 4006 + 0000 + ac10 + 0a63 + ac10 + 0a0c = 231bd, folded 31bf, inverted ce40. */
static const uint8_t HEADER[20] = {0x45, 0, 0, 40, 0, 0, 0x40, 0, 64, 6, 0xce, 0x40, 172, 16, 10, 99, 172, 16, 10, 12};

/* The packet with a segment of 20 times byte 7 and, behind it, 6 bytes of the link's. */
static uint8_t packet[46];

static void restore(void)
{
    memset(packet, 7, sizeof packet);
    memcpy(packet, HEADER, sizeof HEADER);
}

/* Changes a 16-bit word of the header, and its checksum with it (RFC 1624, 3: HC' = ~(~HC + ~m + m')). */
static void change(size_t at, unsigned value)
{
    unsigned old = (unsigned)packet[at] << 8 | packet[at + 1];
    unsigned total = (~((unsigned)packet[10] << 8 | packet[11]) & 0xffff) + (~old & 0xffff) + value;
    total = (total & 0xffff) + (total >> 16);
    total = ~((total & 0xffff) + (total >> 16)) & 0xffff;
    packet[at] = (uint8_t)(value >> 8), packet[at + 1] = (uint8_t)value;
    packet[10] = (uint8_t)(total >> 8), packet[11] = (uint8_t)total;
}

static int read_packet(size_t length)
{
    struct ip_packet found = {.length = 12345};
    int answer = ip_read(OWN, packet, length, &found);
    if (answer != IP_DONE)
        CHECK(found.length, 12345);
    return answer;
}

static void writes(void)
{
    uint8_t out[21];
    memset(out, 0xee, sizeof out);
    CHECK(ip_write(out, PEER, OWN.addr, 20), 40);
    CHECK(memcmp(out, HEADER, 20), 0);
    CHECK(out[20], 0xee);
    CHECK(ip_write(out, PEER, OWN.addr, 65515), 65535);
    CHECK(out[2] << 8 | out[3], 65535);
    memset(out, 0xee, sizeof out);
    CHECK(ip_write(out, PEER, OWN.addr, 65516), 0);
    CHECK(out[0], 0xee);
}

/* DiffServ 46 (RFC 3246), a time to live of 255, and whether it may be cut: what is written is read, and differs from the header above in
   these fields and the checksum alone. By hand: 45b8 + 0028 + 1234 + 0000 + ff06 + ac10 + 0a63 + ac10 + 0a0c = 2c3a9, folded c3ab, inverted
   3c54. */
static void chooses(void)
{
    static const uint8_t CHOSEN[20] = {0x45, 0xb8, 0, 40, 0x12, 0x34, 0, 0, 255, 6, 0x3c, 0x54, 172, 16, 10, 99, 172, 16, 10, 12};
    struct ip_choices choices = {.ttl = 255, .services = 46 << 2, .may_be_cut = 1, .id = 0x1234};
    uint8_t out[40] = {0};
    struct ip_packet found;
    CHECK(ip_write_chosen(out, PEER, OWN.addr, 20, IP_TCP, &choices), 40);
    CHECK(memcmp(out, CHOSEN, 20), 0);
    CHECK(ip_read(OWN, out, 40, &found), IP_DONE);
    /* Where it may not be cut the identification is 0 (RFC 6864, 4.1). */
    choices.may_be_cut = 0;
    CHECK(ip_write_chosen(out, PEER, OWN.addr, 20, IP_TCP, &choices), 40);
    CHECK(out[4] << 8 | out[5], 0);
    CHECK(out[6] << 8 | out[7], 0x4000);
    CHECK(ip_read(OWN, out, 40, &found), IP_DONE);
    CHECK(ip_write_chosen(out, PEER, OWN.addr, 20, IP_TCP, &(struct ip_choices){0}), 40);
    CHECK(memcmp(out, HEADER, 20), 0);
    CHECK(ip_write_chosen(out, PEER, OWN.addr, 65516, IP_UDP, &choices), 0);
}

static void reads(void)
{
    struct ip_packet found;
    restore();
    CHECK(ip_read(OWN, packet, sizeof packet, &found), IP_DONE);
    CHECK(memcmp(&found.src, &PEER, 4), 0);
    CHECK(memcmp(&found.dst, &OWN.addr, 4), 0);
    CHECK(found.segment - packet, 20);
    CHECK(found.length, 20);
    CHECK(read_packet(40), IP_DONE);
    /* With one word of options the segment begins behind it, and the checksum is over them too (RFC 791, 3.1). */
    change(0, 0x4600);
    CHECK(read_packet(sizeof packet), IP_BAD_CHECKSUM);
    restore();
    memset(packet + 20, 0, 4);
    change(0, 0x4600);
    CHECK(ip_read(OWN, packet, sizeof packet, &found), IP_DONE);
    CHECK(found.segment - packet, 24);
    CHECK(found.length, 16);
    /* No fragment: the reserved bit, or none at all. A time to live of 0 is taken (RFC 1122, 3.2.1.7). */
    restore();
    change(6, 0x8000);
    CHECK(read_packet(40), IP_DONE);
    change(6, 0);
    CHECK(read_packet(40), IP_DONE);
    change(8, 0x0006);
    CHECK(read_packet(40), IP_DONE);
}

static void faults(void)
{
    for (size_t length = 0; length < 40; length++) {
        restore();
        CHECK(read_packet(length), length < 20 ? IP_SHORT : IP_BAD_LENGTH);
    }
    restore(), change(0, 0x6500);
    CHECK(read_packet(40), IP_BAD_VERSION);
    restore(), change(0, 0x4400);
    CHECK(read_packet(40), IP_BAD_LENGTH);
    restore(), change(0, 0x4f00);
    CHECK(read_packet(40), IP_BAD_LENGTH);
    restore(), change(2, 19);
    CHECK(read_packet(40), IP_BAD_LENGTH);
    restore(), change(2, 20);
    CHECK(read_packet(40), IP_DONE);
    restore(), change(2, 41);
    CHECK(read_packet(40), IP_BAD_LENGTH);
    CHECK(read_packet(41), IP_DONE);
    restore(), change(8, 0x4011);
    CHECK(read_packet(40), IP_OTHER_PROTOCOL);
    restore(), change(6, 0x2000);
    CHECK(read_packet(40), IP_FRAGMENT);
    restore(), change(6, 0x0001);
    CHECK(read_packet(40), IP_FRAGMENT);
    restore(), change(6, 0x1fff);
    CHECK(read_packet(40), IP_FRAGMENT);
    restore(), change(18, 0x0a0d);
    CHECK(read_packet(40), IP_NOT_MINE);
    /* Each single bit of the header makes another packet of it, which no sum of one's complement misses. */
    for (int bit = 0; bit < 160; bit++) {
        restore();
        packet[bit / 8] = (uint8_t)(packet[bit / 8] ^ 1 << bit % 8);
        CHECK(read_packet(sizeof packet) != IP_DONE, 1);
    }
}

static int may(uint8_t a, uint8_t b, uint8_t c, uint8_t d)
{
    tcpcore_addr addr = {{a, b, c, d}};
    struct ip_packet found;
    int answer = ip_may_be_peer(OWN, addr);
    restore();
    change(12, (unsigned)a << 8 | b), change(14, (unsigned)c << 8 | d);
    CHECK(ip_read(OWN, packet, 40, &found), answer ? IP_DONE : IP_BAD_SOURCE);
    return answer;
}

static void sources(void)
{
    CHECK(may(172, 16, 10, 1), 1);
    CHECK(may(172, 16, 11, 255), 1);
    CHECK(may(1, 0, 0, 0), 1);
    CHECK(may(223, 255, 255, 255), 1);
    CHECK(may(126, 0, 0, 1), 1);
    CHECK(may(128, 0, 0, 1), 1);
    CHECK(may(0, 0, 0, 0), 0);       /* this host */
    CHECK(may(0, 1, 2, 3), 0);       /* a host of this network */
    CHECK(may(255, 255, 255, 255), 0); /* limited broadcast */
    CHECK(may(127, 0, 0, 1), 0);     /* loopback */
    CHECK(may(127, 255, 255, 254), 0);
    CHECK(may(224, 0, 0, 1), 0);     /* multicast */
    CHECK(may(239, 1, 1, 1), 0);
    CHECK(may(240, 0, 0, 1), 0);     /* reserved */
    CHECK(may(172, 16, 10, 12), 0);  /* the own address */
    CHECK(may(172, 16, 10, 255), 0); /* broadcast to the own network */
    CHECK(may(172, 16, 10, 0), 0);   /* the own network */
    /* Networks of two addresses and of one have neither (RFC 3021, 2.1), and the whole of addresses as one network
       has both. */
    CHECK(ip_may_be_peer((struct ip_net){{{10, 0, 0, 0}}, 31}, (tcpcore_addr){{10, 0, 0, 1}}), 1);
    CHECK(ip_may_be_peer((struct ip_net){{{10, 0, 0, 1}}, 32}, (tcpcore_addr){{10, 0, 0, 0}}), 1);
    CHECK(ip_may_be_peer((struct ip_net){{{10, 0, 0, 1}}, 30}, (tcpcore_addr){{10, 0, 0, 3}}), 0);
    CHECK(ip_may_be_peer((struct ip_net){{{10, 0, 0, 1}}, 0}, (tcpcore_addr){{10, 0, 0, 3}}), 1);
}

int main(void)
{
    writes();
    chooses();
    reads();
    faults();
    sources();
    printf("ip: %d checks\n", checks);
    return 0;
}
