/* The test of path.c: errors that are about a connection and ones that aren't, how far they are believed, and pieces that a peer takes as
   it would have taken the segment. */
#include "../path.h"
#include "made.h"
#include "tests/check.h"

#include <string.h>

enum { MSS = 1460, KEEPS = 65535, ISN = 0x12345678, FRONT = IP_HEADER + SEGMENT_HEADER };

static const tcpcore_addr OWN = {{10, 0, 0, 1}}, PEER = {{10, 0, 0, 2}};

struct side {
    tcpcore_end end;
    uint8_t block[TCPCORE_MEMORY(KEEPS, KEEPS)];
};

static struct side own, peer;
static struct path path;
static uint8_t text[KEEPS];

static void make(struct side *side, tcpcore_addr addr, uint16_t port, uint32_t isn)
{
    tcpcore_config config = {.addr = addr, .port = port, .mss = MSS, .isn = isn, .send_capacity = KEEPS, .recv_capacity = KEEPS,
                             .limit = TCPCORE_LIMIT, .sack = 1};
    side->end = (tcpcore_end)TCPCORE_END_INIT;
    CHECK(tcpcore_new(&side->end, &config, side->block, sizeof side->block), TCPCORE_DONE);
}

static struct tcpcore_status status_of(const struct side *side)
{
    struct tcpcore_status status;
    CHECK(tcpcore_status(&side->end, &status), TCPCORE_DONE);
    return status;
}

/* All that is due goes over whole; how many segments. */
static int carry(struct side *from, struct side *to, tcpcore_addr src, tcpcore_addr dst)
{
    uint8_t segment[TCPCORE_EMIT_ROOM];
    tcpcore_addr unused;
    size_t length;
    int count = 0;
    for (; tcpcore_emit(&from->end, segment, sizeof segment, &unused, &length) == TCPCORE_DONE; count++)
        CHECK(tcpcore_arrive(&to->end, src, dst, segment, length), TCPCORE_DONE);
    return count;
}

static void begin(void)
{
    make(&own, OWN, 1, ISN);
    make(&peer, PEER, 2, 77);
    path_init(&path, ISN, 1500);
    CHECK(tcpcore_listen(&peer.end), TCPCORE_DONE);
    CHECK(tcpcore_connect(&own.end, PEER, 2), TCPCORE_DONE);
}

static void open_both(void)
{
    begin();
    CHECK(carry(&own, &peer, OWN, PEER), 1);
    CHECK(carry(&peer, &own, PEER, OWN), 1);
    CHECK(carry(&own, &peer, OWN, PEER), 1);
}

static void free_both(void)
{
    CHECK(tcpcore_free(&own.end), TCPCORE_DONE);
    CHECK(tcpcore_free(&peer.end), TCPCORE_DONE);
}

/* An error about a packet of 1,500 bytes at this place of the own end's numbers. */
static int meets(uint8_t type, uint8_t code, uint16_t mtu, uint32_t place, uint64_t now)
{
    struct icmp_error error = {.type = type, .code = code, .protocol = IP_TCP, .seq = ISN + place, .length = 1500, .mtu = mtu};
    struct tcpcore_status status = status_of(&own);
    return path_error(&path, &status, &error, now);
}

static int is_too_big(uint16_t mtu, uint32_t place, uint64_t now) { return meets(ICMP_UNREACHABLE, ICMP_TOO_BIG, mtu, place, now); }

/* In the handshake nobody at the port or no such protocol is the end of it; past it nothing is. And what isn't in flight isn't looked at. */
static void hard_and_soft(void)
{
    begin();
    uint8_t syn[TCPCORE_EMIT_ROOM];
    tcpcore_addr to;
    size_t length;
    CHECK(tcpcore_emit(&own.end, syn, sizeof syn, &to, &length), TCPCORE_DONE);
    for (unsigned code = 0; code < 16; code++)
        if (code != ICMP_TOO_BIG)
            CHECK(meets(ICMP_UNREACHABLE, (uint8_t)code, 0, 0, 0), code == ICMP_NO_PROTOCOL || code == ICMP_NO_PORT ? PATH_HARD : PATH_SOFT);
    CHECK(meets(ICMP_EXPIRED, 0, 0, 0, 0), PATH_SOFT);
    CHECK(meets(ICMP_BAD_HEADER, ICMP_NO_PORT, 0, 0, 0), PATH_SOFT);
    CHECK(path.type == ICMP_BAD_HEADER && path.code == ICMP_NO_PORT, 1);
    CHECK(meets(ICMP_UNREACHABLE, ICMP_NO_PORT, 0, 1, 0), PATH_NOTHING);
    CHECK(meets(ICMP_UNREACHABLE, ICMP_NO_PORT, 0, UINT32_MAX, 0), PATH_NOTHING);
    struct icmp_error datagram = {.type = ICMP_UNREACHABLE, .code = ICMP_NO_PORT, .protocol = IP_UDP, .seq = ISN};
    struct tcpcore_status status = status_of(&own);
    CHECK(path_error(&path, &status, &datagram, 0), PATH_NOTHING);
    free_both();
    open_both();
    size_t taken;
    CHECK(tcpcore_send(&own.end, text, 1000, &taken), TCPCORE_DONE);
    CHECK(meets(ICMP_UNREACHABLE, ICMP_NO_PORT, 0, 1, 0), PATH_NOTHING); /* nothing is in flight */
    CHECK(carry(&own, &peer, OWN, PEER), 1);
    for (unsigned code = 0; code < 16; code++)
        if (code != ICMP_TOO_BIG)
            CHECK(meets(ICMP_UNREACHABLE, (uint8_t)code, 0, 1, 0), PATH_SOFT);
    for (uint32_t place = 0; place < 1100; place++)
        CHECK(meets(ICMP_UNREACHABLE, ICMP_NO_HOST, 0, place, 0), place >= 1 && place <= 1000 ? PATH_SOFT : PATH_NOTHING);
    free_both();
}

/* 1,000 bytes are in flight, of which nothing is acknowledged. */
static void some_in_flight(void)
{
    size_t taken;
    open_both();
    CHECK(tcpcore_send(&own.end, text, 1000, &taken), TCPCORE_DONE);
    CHECK(carry(&own, &peer, OWN, PEER), 1);
    path_sent(&path, 1001, 1500);
}

/* What a router says that it takes, by the plateaus of RFC 1191 where it says nothing, and never less than PATH_LEAST. */
static void narrower(void)
{
    some_in_flight();
    CHECK(is_too_big(1500, 1, 0), PATH_NOTHING); /* it would have fitted */
    CHECK(is_too_big(9000, 1, 0), PATH_NOTHING);
    CHECK(is_too_big(67, 1, 0), PATH_NOTHING); /* no link has that */
    CHECK(is_too_big(1400, 1001, 0), PATH_NOTHING);
    CHECK(path.mtu, 1500);
    CHECK(is_too_big(1400, 1, 0), PATH_NARROWER);
    CHECK(path.mtu, 1400);
    CHECK(path_text(&path, 20), 1360);
    CHECK(path_text(&path, 60), 1320);
    CHECK(is_too_big(1400, 1, 0), PATH_NOTHING);
    CHECK(is_too_big(1450, 1, 0), PATH_NOTHING);
    CHECK(path.may_be_cut, 0);
    CHECK(is_too_big(500, 1, 5), PATH_NARROWER);
    CHECK(path.mtu, PATH_LEAST);
    CHECK(path.may_be_cut, 1);
    CHECK(is_too_big(68, 1, 6), PATH_NOTHING);
    /* After ten minutes the first MTU is tried again. */
    CHECK(path_run(&path, 1, 0, 5 + PATH_AGE - 1), 0);
    CHECK(path.mtu, PATH_LEAST);
    CHECK(path_run(&path, 1, 0, 5 + PATH_AGE), 0);
    CHECK(path.mtu, 1500);
    CHECK(path.may_be_cut, 0);
    static const uint32_t STEPS[] = {1492, 1006, PATH_LEAST};
    for (size_t at = 0; at < sizeof STEPS / sizeof STEPS[0]; at++) {
        struct icmp_error error = {.type = ICMP_UNREACHABLE, .code = ICMP_TOO_BIG, .protocol = IP_TCP, .seq = ISN + 1, .length = (uint16_t)path.mtu};
        struct tcpcore_status status = status_of(&own);
        CHECK(path_error(&path, &status, &error, 7), PATH_NARROWER);
        CHECK(path.mtu, STEPS[at]);
    }
    free_both();
}

/* What the peer has acknowledged shows that longer packets arrive: an error that says otherwise waits for a timeout without progress. */
static void borne_out(void)
{
    some_in_flight();
    CHECK(path_run(&path, 1000, 0, 0), 0);
    CHECK(path.longest, 0);
    CHECK(path_run(&path, 1001, 0, 0), 0);
    CHECK(path.longest, 1500);
    CHECK(is_too_big(1400, 1, 0), PATH_NOTHING);
    CHECK(path.mtu, 1500);
    CHECK(path_run(&path, 1, 0, 0), 0);
    CHECK(path_run(&path, 1, 1, 0), 1);
    CHECK(path.mtu, 1400);
    CHECK(path_run(&path, 1, 1, 0), 0);
    /* One that progress has refuted, though a timeout comes as well. */
    CHECK(is_too_big(1300, 1, 0), PATH_NOTHING);
    CHECK(path_run(&path, 2, 1, 0), 0);
    CHECK(path_run(&path, 2, 1, 0), 0);
    CHECK(path.mtu, 1400);
    free_both();
}

/* Text of this length behind a FIN, in pieces for this MTU: the peer has all of it, and the FIN. */
static void pieces(size_t length, uint32_t mtu)
{
    uint8_t segment[TCPCORE_EMIT_ROOM], out[TCPCORE_EMIT_ROOM], found[MSS];
    size_t taken, whole, count = 0, got;
    tcpcore_addr to;
    open_both();
    for (size_t at = 0; at < length; at++)
        text[at] = (uint8_t)(at * 7 + length);
    path.mtu = mtu;
    CHECK(tcpcore_send(&own.end, text, length, &taken), TCPCORE_DONE);
    CHECK(tcpcore_close(&own.end), TCPCORE_DONE);
    while (tcpcore_emit(&own.end, segment, sizeof segment, &to, &whole) == TCPCORE_DONE)
        for (size_t from = 0, piece; (piece = path_piece(&path, segment, whole, &from, out, OWN, PEER)); count++) {
            int is_last = from == whole;
            CHECK(piece <= mtu - IP_HEADER, 1);
            CHECK(is_last || piece == mtu - IP_HEADER, 1);
            CHECK(bits_of(out, FIN | PSH), is_last ? bits_of(segment, FIN | PSH) : 0);
            if (whole <= mtu - IP_HEADER)
                CHECK(memcmp(out, segment, whole), 0);
            CHECK(tcpcore_arrive(&peer.end, OWN, PEER, out, piece), TCPCORE_DONE);
        }
    CHECK(count >= (length + mtu - FRONT - 1) / (mtu - FRONT), 1);
    CHECK(tcpcore_receive(&peer.end, found, sizeof found, &got), TCPCORE_DONE);
    CHECK(got, length);
    CHECK(memcmp(found, text, length), 0);
    CHECK(status_of(&peer).finished, 1);
    CHECK(carry(&peer, &own, PEER, OWN) > 0, 1);
    CHECK(status_of(&own).snd_una, length + 2);
    free_both();
}

int main(void)
{
    hard_and_soft();
    narrower();
    borne_out();
    for (size_t length = 1; length <= MSS; length += length < 10 ? 1 : 145)
        for (uint32_t mtu = PATH_LEAST; mtu <= 1500; mtu += 77)
            pieces(length, mtu);
    printf("path: %d checks\n", checks);
    return 0;
}
