/*
 * The device's Ethernet, ARP and ICMP (examples/device/net.c) on this machine: what answers an ARP request and an echo, byte for byte;
 * that a neighbour that isn't known is asked for; and many frames with bytes changed and cut short, under sanitizers. Prints
 * `frames: N checks`.
 */
#include "net.h"

#include <stdio.h>
#include <stdlib.h>
#include <string.h>

enum { RANDOM_FRAMES = 300000 };

/* 10.0.2.2 at 02:aa asks for 10.0.2.15 (RFC 826). */
static const uint8_t ASKS[60] = {255, 255, 255, 255, 255, 255, 2, 0, 0, 0, 0, 0xaa, 8, 6, 0, 1, 8, 0, 6, 4, 0, 1,
                                 2, 0, 0, 0, 0, 0xaa, 10, 0, 2, 2, 0, 0, 0, 0, 0, 0, 10, 0, 2, 15};
static const uint8_t TOLD[42] = {2, 0, 0, 0, 0, 0xaa, 2, 0, 0, 0, 0, 15, 8, 6, 0, 1, 8, 0, 6, 4, 0, 2,
                                 2, 0, 0, 0, 0, 15, 10, 0, 2, 15, 2, 0, 0, 0, 0, 0xaa, 10, 0, 2, 2};
/* 10.0.2.2 sends an echo with the data "hello", an odd number of bytes (RFC 792); make_echo puts the two sums in. */
static const uint8_t ECHOES[60] = {2, 0, 0, 0, 0, 15, 2, 0, 0, 0, 0, 0xaa, 8, 0, 0x45, 0, 0, 33, 0, 0, 0, 0, 64, 1, 0, 0,
                                   10, 0, 2, 2, 10, 0, 2, 15, 8, 0, 0, 0, 1, 2, 3, 4, 'h', 'e', 'l', 'l', 'o'};

static struct net net;
static uint8_t sent[FRAME_MOST];
static size_t length_sent, segments;
static int checks;

static void check(int holds, const char *what)
{
    checks++;
    if (!holds)
        exit((printf("frames: FAILED: %s\n", what), 1));
}

void board_send(const uint8_t *frame, size_t length)
{
    check(length <= sizeof sent, "a frame of more than Ethernet's bytes goes out");
    memcpy(sent, frame, length);
    length_sent = length;
}

static void arrive(tcpcore_addr src, const void *segment, size_t length)
{
    static uint8_t copy[FRAME_MOST];
    (void)src;
    memcpy(copy, segment, length);
    segments++;
}

static void begin(void)
{
    net = (struct net){.own = {{{10, 0, 2, 15}}, 24}, .gateway = {{10, 0, 2, 2}}, .ethernet = {2, 0, 0, 0, 0, 15}, .arrive = arrive};
    length_sent = 0;
}

/* The words of bytes, an odd last one with a 0 behind it, summed with the carry put back: 0xffff of what has its checksum (RFC 1071). */
static unsigned sum(const uint8_t *at, size_t length)
{
    unsigned long all = 0;
    for (size_t place = 0; place < length; place += 2)
        all += 256UL * at[place] + (place + 1 < length ? at[place + 1] : 0U);
    return (unsigned)(all % 65535 == 0 && all > 0 ? 65535 : all % 65535);
}

/* An echo with its sums. */
static void make_echo(uint8_t *frame)
{
    memcpy(frame, ECHOES, sizeof ECHOES);
    unsigned header = 65535 - sum(frame + 14, 20), echo = 65535 - sum(frame + 34, 13);
    frame[24] = (uint8_t)(header >> 8), frame[25] = (uint8_t)header;
    frame[36] = (uint8_t)(echo >> 8), frame[37] = (uint8_t)echo;
}

static void answers(void)
{
    uint8_t echo[60];
    begin();
    make_echo(echo);
    net_arrive(&net, echo, sizeof echo);
    check(length_sent == 42 && sent[0] == 255 && sent[12] == 8 && sent[13] == 6 && sent[21] == 1 &&
              memcmp(sent + 38, "\x0a\x00\x02\x02", 4) == 0, "a neighbour that isn't known is asked for");
    net_arrive(&net, ASKS, sizeof ASKS);
    check(length_sent == sizeof TOLD && memcmp(sent, TOLD, sizeof TOLD) == 0, "the answer of an ARP request");
    net_arrive(&net, echo, sizeof echo);
    check(length_sent == 14 + 33 && memcmp(sent, TOLD, 12) == 0 && sent[23] == 1 &&
              memcmp(sent + 26, "\x0a\x00\x02\x0f\x0a\x00\x02\x02", 8) == 0, "an echo's answer goes back");
    check(sum(sent + 14, 20) == 65535 && sum(sent + 34, 13) == 65535, "with its two sums");
    check(sent[34] == 0 && memcmp(sent + 38, echo + 38, 9) == 0, "and with what came");
}

/* Frames that have no answer. */
static void silences(void)
{
    uint8_t echo[60], asks[sizeof ASKS];
    begin();
    net_arrive(&net, ASKS, sizeof ASKS);
    length_sent = 0;
    make_echo(echo);
    echo[46] ^= 1;
    net_arrive(&net, echo, sizeof echo);
    check(length_sent == 0, "an echo with another sum");
    /* Four bytes of ICMP are no echo: 24 bytes of IPv4, whose sum is 9 more, since the length is 9 less. */
    make_echo(echo);
    echo[17] = 24, echo[25] = (uint8_t)(echo[25] + 9), echo[36] = 0xf7, echo[37] = 0xff;
    check(sum(echo + 14, 20) == 65535 && sum(echo + 34, 4) == 65535, "its sums are right");
    net_arrive(&net, echo, sizeof echo);
    check(length_sent == 0, "an echo without its header");
    memcpy(asks, ASKS, sizeof asks);
    asks[41] = 16;
    net_arrive(&net, asks, sizeof asks);
    check(length_sent == 0, "an ARP request for another address");
}

/* Packets for another network go through the gateway; and the eighth neighbour behind one takes its place. */
static void neighbours(void)
{
    uint8_t asks[sizeof ASKS];
    begin();
    net_arrive(&net, ASKS, sizeof ASKS);
    net_send(&net, (tcpcore_addr){{192, 168, 7, 7}}, "segment", 7);
    check(length_sent == 14 + 20 + 7 && sent[5] == 0xaa && sum(sent + 14, 20) == 65535 && sent[23] == 6 &&
              memcmp(sent + 34, "segment", 7) == 0, "another network's packets go to the gateway");
    memcpy(asks, ASKS, sizeof asks);
    for (asks[31] = 20; asks[31] < 20 + NEIGHBOURS - 1; asks[31]++)
        net_arrive(&net, asks, sizeof asks);
    net_send(&net, (tcpcore_addr){{10, 0, 2, 2}}, "segment", 7);
    check(length_sent == 14 + 20 + 7, "as many neighbours as there is room for are known");
    net_arrive(&net, asks, sizeof asks);
    net_send(&net, (tcpcore_addr){{10, 0, 2, 2}}, "segment", 7);
    check(length_sent == 42, "and one more takes the place of the first");
}

/* A frame with bytes changed, and of each fourth one a part alone, in memory that ends with it. */
static void random_frame(const uint8_t *frame)
{
    size_t length = rand() % 4 ? sizeof ECHOES : 1 + (size_t)rand() % sizeof ECHOES;
    uint8_t *bytes = malloc(length);
    if (!bytes)
        exit(1);
    memcpy(bytes, frame, length);
    for (int count = rand() % 4; count > 0; count--)
        bytes[(size_t)rand() % length] = (uint8_t)rand();
    net_arrive(&net, bytes, length);
    free(bytes);
}

int main(void)
{
    uint8_t frames[3][60];
    answers();
    silences();
    neighbours();
    begin();
    memcpy(frames[0], ASKS, sizeof ASKS);
    make_echo(frames[1]);
    make_echo(frames[2]);
    /* The same packet of protocol 6 has a sum of 5 less. */
    frames[2][23] = 6, frames[2][25] = (uint8_t)(frames[2][25] - 5);
    for (int count = 0; count < RANDOM_FRAMES; count++)
        random_frame(frames[count % 3]);
    check(segments > 1000, "TCP's segments go on");
    printf("frames: %d checks\n", checks);
    return 0;
}
