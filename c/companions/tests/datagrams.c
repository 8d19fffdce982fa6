/* The test of udp.c, icmp.c and ethernet.c: datagrams and messages whose checksums are made by hand, frames, and each fault. */
#include "../ethernet.h"
#include "../icmp.h"
#include "../udp.h"
#include "tests/check.h"

#include <string.h>

static const tcpcore_addr HERE = {{172, 16, 10, 12}}, PEER = {{172, 16, 10, 99}};

/* From port 1234 of 172.16.10.99 to port 53 of 172.16.10.12, "abc". The checksum by hand: ac10 + 0a63 + ac10 + 0a0c + 0011 + 000b for the
   pseudo-header, 04d2 + 0035 + 000b for the header, 6162 + 6300 for the text, in all 2361f, folded 3621, inverted c9de. */
static const uint8_t DATAGRAM[11] = {0x04, 0xd2, 0, 53, 0, 11, 0xc9, 0xde, 'a', 'b', 'c'};

/* An echo with identifier 1234 and number 1, in base 16: 0800 + 1234 + 0001 + 6162 is 7b97, inverted 8468. Its reply: 7397, 8c68. */
static const uint8_t ECHO[10] = {8, 0, 0x84, 0x68, 0x12, 0x34, 0, 1, 'a', 'b'};
static const uint8_t REPLY[10] = {0, 0, 0x8c, 0x68, 0x12, 0x34, 0, 1, 'a', 'b'};

static struct ip_packet packet_of(const uint8_t *bytes, size_t length) { return (struct ip_packet){PEER, HERE, bytes, length}; }

static int read_datagram(const uint8_t *bytes, size_t length, int vouched, struct udp *found)
{
    struct ip_packet packet = packet_of(bytes, length);
    found->length = 12345;
    int answer = udp_read(&packet, vouched, found);
    if (answer != UDP_DONE)
        CHECK(found->length, 12345);
    return answer;
}

static void reads(void)
{
    struct udp found;
    uint8_t bytes[16] = {0};
    memcpy(bytes, DATAGRAM, sizeof DATAGRAM);
    CHECK(read_datagram(bytes, sizeof DATAGRAM, 0, &found), UDP_DONE);
    CHECK(found.src_port, 1234);
    CHECK(found.dst_port, 53);
    CHECK(found.text - bytes, 8);
    CHECK(found.length, 3);
    /* What lies behind it isn't its own (RFC 1122, 4.1). */
    CHECK(read_datagram(bytes, sizeof bytes, 0, &found), UDP_DONE);
    CHECK(found.length, 3);
    for (size_t length = 0; length < sizeof DATAGRAM; length++)
        CHECK(read_datagram(bytes, length, 0, &found), length < 8 ? UDP_SHORT : UDP_BAD_LENGTH);
    bytes[5] = 7;
    CHECK(read_datagram(bytes, sizeof bytes, 1, &found), UDP_BAD_LENGTH);
    /* Each single bit but those of the length; and where the checksum is vouched for, or there is none, no one. */
    for (size_t bit = 0; bit < 8 * sizeof DATAGRAM; bit++) {
        memcpy(bytes, DATAGRAM, sizeof DATAGRAM);
        bytes[bit / 8] = (uint8_t)(bytes[bit / 8] ^ 1 << bit % 8);
        if (bit / 8 == 4 || bit / 8 == 5)
            continue;
        CHECK(read_datagram(bytes, sizeof DATAGRAM, 0, &found), UDP_BAD_CHECKSUM);
        CHECK(read_datagram(bytes, sizeof DATAGRAM, 1, &found), UDP_DONE);
        bytes[6] = bytes[7] = 0;
        CHECK(read_datagram(bytes, sizeof DATAGRAM, 0, &found), UDP_DONE);
    }
}

static void writes(void)
{
    uint8_t out[12] = {0, 0, 0, 0, 0, 0, 0, 0, 'a', 'b', 'c', 0xee};
    CHECK(udp_write(out, PEER, 1234, HERE, 53, 3), 11);
    CHECK(memcmp(out, DATAGRAM, sizeof DATAGRAM), 0);
    CHECK(out[11], 0xee);
    /* A checksum that would be zero, which says that there is none, is written as ones: 16caa + 0511 + 8e43 is 1fffe, folded ffff. */
    out[8] = 0x8e, out[9] = 0x43;
    CHECK(udp_write(out, PEER, 1234, HERE, 53, 2), 10);
    CHECK(out[6] << 8 | out[7], 0xffff);
    struct udp found;
    CHECK(read_datagram(out, 10, 0, &found), UDP_DONE);
}

static void echoes(void)
{
    uint8_t bytes[sizeof ECHO];
    memcpy(bytes, ECHO, sizeof ECHO);
    for (size_t length = 0; length <= sizeof ECHO; length++) {
        struct ip_packet packet = packet_of(bytes, length);
        CHECK(icmp_is_whole(&packet), length == sizeof ECHO);
    }
    for (size_t bit = 0; bit < 8 * sizeof ECHO; bit++) {
        struct ip_packet packet = packet_of(bytes, sizeof ECHO);
        bytes[bit / 8] = (uint8_t)(bytes[bit / 8] ^ 1 << bit % 8);
        CHECK(icmp_is_whole(&packet), 0);
        bytes[bit / 8] = (uint8_t)(bytes[bit / 8] ^ 1 << bit % 8);
    }
    CHECK(icmp_id(bytes), 0x1234);
    icmp_make_echo(bytes, sizeof bytes, ICMP_REPLY, 0x1234);
    CHECK(memcmp(bytes, REPLY, sizeof REPLY), 0);
    bytes[1] = 9, bytes[2] = 9, bytes[4] = 9;
    icmp_make_echo(bytes, sizeof bytes, ICMP_ECHO, 0x1234);
    CHECK(memcmp(bytes, ECHO, sizeof ECHO), 0);
}

/* Of the packet its header and eight bytes go along: 0303 + ffff for a header that is summed + 4 times 0707 is 11f1e, folded 1f1f,
   inverted e0e0. */
static void unreachable(void)
{
    static const uint8_t FRONT[8] = {3, 3, 0xe0, 0xe0, 0, 0, 0, 0};
    uint8_t packet[80], out[ICMP_ROOM + 1];
    memset(packet, 7, sizeof packet);
    memset(out, 0xee, sizeof out);
    ip_write(packet, PEER, HERE, 60);
    CHECK(icmp_unreachable(out, ICMP_NO_PORT, packet, sizeof packet), 36);
    CHECK(memcmp(out, FRONT, sizeof FRONT), 0);
    CHECK(memcmp(out + 8, packet, 28), 0);
    CHECK(out[36], 0xee);
    /* The longest header, and packets that end before: nothing is read past their ends. */
    packet[0] = 0x4f;
    CHECK(icmp_unreachable(out, ICMP_NO_HOST, packet, sizeof packet), ICMP_ROOM);
    CHECK(out[ICMP_ROOM], 0xee);
    for (size_t length = 0; length <= 68; length++)
        CHECK(icmp_unreachable(out, ICMP_TOO_BIG, packet, length), 8 + length);
}

/* That a packet of 60 bytes from 172.16.10.12:4660 to 172.16.10.99:53 was too long for 1,280 bytes, with sequence number 01020304. */
static size_t make_error(uint8_t *message)
{
    static const uint8_t FRONT[8] = {0x12, 0x34, 0, 53, 1, 2, 3, 4};
    uint8_t packet[28];
    ip_write(packet, HERE, PEER, 40);
    memcpy(packet + 20, FRONT, sizeof FRONT);
    size_t length = icmp_unreachable(message, ICMP_TOO_BIG, packet, sizeof packet);
    message[6] = 5, message[7] = 0;
    return length;
}

/* Whether a message is an error once its checksum is right. */
static int is_error(uint8_t *message, size_t length, struct icmp_error *found)
{
    struct ip_packet packet = packet_of(message, length);
    memset(found, 0xee, sizeof *found);
    if (length >= 4) {
        uint32_t total = 0;
        message[2] = message[3] = 0;
        for (size_t at = 0; at < length; at++)
            total += (uint32_t)message[at] << (at % 2 ? 0 : 8);
        while (total >> 16)
            total = (total & 0xffff) + (total >> 16);
        message[2] = (uint8_t)(~total >> 8), message[3] = (uint8_t)~total;
    }
    int answer = icmp_read_error(&packet, found);
    if (!answer)
        CHECK(found->type, 0xee);
    return answer;
}

static void errors(void)
{
    uint8_t message[ICMP_ROOM + 40] = {0};
    struct icmp_error found;
    size_t length = make_error(message);
    CHECK(length, 36);
    CHECK(is_error(message, length, &found), 1);
    CHECK(found.type == ICMP_UNREACHABLE && found.code == ICMP_TOO_BIG && found.protocol == IP_TCP, 1);
    CHECK(memcmp(&found.src, &HERE, 4) || memcmp(&found.dst, &PEER, 4), 0);
    CHECK(found.src_port, 0x1234);
    CHECK(found.dst_port, 53);
    CHECK(found.seq, 0x01020304);
    CHECK(found.length, 60);
    CHECK(found.mtu, 1280);
    /* With less than 8 bytes of what was sent it says nothing, and more don't harm. */
    for (size_t less = 0; less < length; less++)
        CHECK(is_error(message, less, &found), 0);
    CHECK(is_error(message, sizeof message, &found), 1);
    /* One whose checksum is wrong is none. */
    message[7] ^= 1;
    struct ip_packet packet = packet_of(message, length);
    CHECK(icmp_read_error(&packet, &found), 0);
    message[7] ^= 1;
    /* Each type. An MTU is that of one code alone. */
    for (unsigned type = 0; type < 256; type++) {
        message[0] = (uint8_t)type;
        CHECK(is_error(message, length, &found), type == ICMP_UNREACHABLE || type == ICMP_EXPIRED || type == ICMP_BAD_HEADER);
    }
    message[0] = ICMP_EXPIRED;
    CHECK(is_error(message, length, &found), 1);
    CHECK(found.mtu, 0);
}

static void quotations(void)
{
    uint8_t message[ICMP_ROOM + 40] = {0};
    struct icmp_error found;
    size_t length = make_error(message);
    /* What is quoted: another version, a header that is too short or too long, a length that can't be, a piece but the first. */
    static const struct { size_t at; uint8_t value; int wanted; } QUOTED[] = {
        {8, 0x65, 0}, {8, 0x44, 0}, {8, 0x46, 0}, {8, 0x4f, 0}, {11, 27, 0}, {11, 28, 1}, {14, 0x20, 1}, {15, 1, 0}, {14, 0x1f, 0}};
    for (size_t at = 0; at < sizeof QUOTED / sizeof QUOTED[0]; at++) {
        make_error(message);
        message[QUOTED[at].at] = QUOTED[at].value;
        CHECK(is_error(message, length, &found), QUOTED[at].wanted);
    }
    /* Options of the packet that is quoted are passed over. */
    make_error(message);
    memmove(message + 32, message + 28, 8);
    message[8] = 0x46;
    CHECK(is_error(message, 40, &found), 1);
    CHECK(found.seq, 0x01020304);
}

/* 10.0.2.2 at 02:00:00:00:00:aa asks for 10.0.2.15, and is told 02:00:00:00:00:0f (RFC 826). */
static const uint8_t ASKS[42] = {255, 255, 255, 255, 255, 255, 2, 0, 0, 0, 0, 0xaa, 8, 6, 0, 1, 8, 0, 6, 4, 0, 1,
                                 2, 0, 0, 0, 0, 0xaa, 10, 0, 2, 2, 0, 0, 0, 0, 0, 0, 10, 0, 2, 15};
static const uint8_t TOLD[42] = {2, 0, 0, 0, 0, 0xaa, 2, 0, 0, 0, 0, 15, 8, 6, 0, 1, 8, 0, 6, 4, 0, 2,
                                 2, 0, 0, 0, 0, 15, 10, 0, 2, 15, 2, 0, 0, 0, 0, 0xaa, 10, 0, 2, 2};

static void frames(void)
{
    static const struct ethernet_addr OWN = {{2, 0, 0, 0, 0, 15}};
    static const tcpcore_addr IP = {{10, 0, 2, 15}};
    uint8_t frame[sizeof ASKS], out[43];
    memset(out, 0xee, sizeof out);
    for (size_t length = 0; length <= sizeof ASKS; length++)
        CHECK(ethernet_answer(out, ASKS, length, OWN, IP), length == sizeof ASKS ? 42 : 0);
    CHECK(memcmp(out, TOLD, sizeof TOLD), 0);
    CHECK(out[42], 0xee);
    CHECK(ethernet_type(out), ETHERNET_ARP);
    /* Whoever asks, and wherever: all else has to be as it is. */
    for (size_t at = 0; at < sizeof ASKS; at++) {
        int is_askers = at < 12 || (at >= 22 && at < 38);
        memcpy(frame, ASKS, sizeof frame);
        frame[at] ^= 0x40;
        CHECK(ethernet_answer(out, frame, sizeof frame, OWN, IP), is_askers ? 42 : 0);
    }
    ethernet_write(out, (struct ethernet_addr){{1, 2, 3, 4, 5, 6}}, OWN, ETHERNET_IPV4);
    CHECK(memcmp(out, "\1\2\3\4\5\6\2\0\0\0\0\17\10\0", 14), 0);
}

int main(void)
{
    frames();
    reads();
    writes();
    echoes();
    unreachable();
    errors();
    quotations();
    printf("datagrams: %d checks\n", checks);
    return 0;
}
