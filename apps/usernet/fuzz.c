/*
 * fuzz: what a hostile client may put into the TUN device, at random: fuzz KIND PACKETS SEED [DEVICE]
 * It runs inside the namespace, where it writes so many packets to tun0 by a packet socket, with source addresses that the namespace's
 * kernel doesn't have, so that nobody but this program answers what comes back. KIND is a name of the table at the end, or "all".
 * Each packet is made here: what it shows is that usernet outlives it (hostile.py looks at that). It prints how many were sent.
 */
#define _GNU_SOURCE
#include "fuzz.h"

#include <arpa/inet.h>
#include <errno.h>
#include <fcntl.h>
#include <linux/if_ether.h>
#include <linux/if_packet.h>
#include <linux/virtio_net.h>
#include <net/if.h>
#include <stdio.h>
#include <stdlib.h>
#include <string.h>
#include <sys/socket.h>
#include <unistd.h>

/* The ports of world.py: what comes is sent back; it closes at once; it resets what sends anything; nobody listens. */
enum { ECHO = 8082, CLOSES = 8085, RESETS = 8086, NOBODY = 9 };

struct flow flows[FLOWS];

/* A segment to be written: its control bits, window, text, and what is wrong with it. */
struct made {
    uint32_t seq, ack;
    unsigned bits;
    uint16_t window;
    size_t text, options;
    uint8_t option[OPTIONS];
    int has_bad_sum, offset; /* an offset above 0 takes the place of the right one */
    int needs_sum;           /* the device's header says that the checksum is left out */
};

static uint64_t state, sent, wanted;
static int device, losses;

uint32_t draw(uint32_t below)
{
    state ^= state << 13;
    state ^= state >> 7;
    state ^= state << 17;
    return (uint32_t)((state >> 16) % below);
}

uint32_t draw32(void) { return draw(65536) << 16 | draw(65536); }

static void write32(uint8_t *at, uint32_t value)
{
    write16(at, (uint16_t)(value >> 16));
    write16(at + 2, (uint16_t)value);
}

/* Where the queue is full it waits a moment. What the kernel takes for no packet at all is left out. */
void put(const uint8_t *frame, size_t length)
{
    while (send(device, frame, length, 0) < 0 && errno != EINVAL) {
        if (errno != ENOBUFS && errno != EAGAIN)
            perror("the device"), exit(1);
        usleep(100);
    }
    sent++;
}

/* The packets that the device has lost, since nobody had read those before. */
static uint64_t lost(void)
{
    char text[32] = {0};
    return pread(losses, text, sizeof text - 1, 0) > 0 ? strtoull(text, NULL, 10) : 0;
}

/* Those aren't counted as sent, and the reader is given time. */
static void mind_losses(void)
{
    static uint64_t before;
    uint64_t now = lost();
    if (now == before)
        return;
    sent -= now - before < sent ? now - before : sent;
    before = now;
    usleep(2000);
}

/* The segment of a flow, behind both headers. */
static void go(const struct flow *flow, const struct made *made)
{
    static uint8_t frame[TRAINS_ROOM];
    struct virtio_net_hdr front = {0};
    uint8_t *bytes = frame + TRAINS_FRONT;
    size_t header = SEGMENT_HEADER + made->options, length = header + made->text;
    memset(bytes, 0, length);
    write16(bytes, (uint16_t)(FIRST + (flow - flows)));
    write16(bytes + 2, flow->server_port);
    write32(bytes + AT_SEQ, made->seq);
    write32(bytes + AT_ACK, made->ack);
    bytes[AT_OFFSET] = (uint8_t)((made->offset ? (size_t)made->offset : header / 4) << 4);
    bytes[AT_BITS] = (uint8_t)made->bits;
    write16(bytes + AT_WINDOW, made->window);
    memcpy(bytes + SEGMENT_HEADER, made->option, made->options);
    trains_sum(bytes, length, CLIENT, flow->server);
    if (made->has_bad_sum)
        bytes[AT_CHECKSUM] ^= 0x55;
    if (made->needs_sum)
        front.flags = VIRTIO_NET_HDR_F_NEEDS_CSUM, front.csum_start = IP_HEADER, front.csum_offset = AT_CHECKSUM;
    memcpy(frame, &front, TUN_HEADER);
    put(frame, TUN_HEADER + ip_write(frame + TUN_HEADER, CLIENT, flow->server, length));
}

/* What has come for a flow: the numbers that its next segments have. */
static void note(const uint8_t *bytes, size_t length)
{
    struct flow *flow = &flows[(uint16_t)(read16(bytes + 2) - FIRST) % FLOWS];
    if (read16(bytes) != flow->server_port || length < header_of(bytes))
        return;
    if (bits_of(bytes, RST)) {
        flow->phase = IDLE;
    } else if (bits_of(bytes, SYN | ACK) == (SYN | ACK) && flow->phase == OPENING) {
        flow->phase = OPEN;
        flow->ack = read32(bytes + AT_SEQ) + 1;
        go(flow, &(struct made){.seq = flow->seq, .ack = flow->ack, .bits = ACK, .window = (uint16_t)draw(65536)});
    } else if (flow->phase == OPEN) {
        flow->ack = read32(bytes + AT_SEQ) + (uint32_t)(length - header_of(bytes)) + !!bits_of(bytes, FIN);
        flow->seq = read32(bytes + AT_ACK);
    }
}

static void read_answers(void)
{
    static uint8_t frame[TRAINS_ROOM];
    ssize_t got;
    while ((got = recv(device, frame, sizeof frame, MSG_DONTWAIT)) > 0)
        if ((size_t)got >= TRAINS_FRONT + SEGMENT_HEADER && frame[TUN_HEADER + 9] == 6)
            note(frame + TRAINS_FRONT, (size_t)got - TRAINS_FRONT);
}

struct flow *some_flow(int phase)
{
    struct flow *flow = &flows[draw(SOME)];
    for (int turn = 0; turn < 50 && flow->phase != phase; turn++)
        flow = &flows[draw(SOME)];
    return flow;
}

static void reset_of(const struct flow *flow, uint32_t seq)
{
    go(flow, &(struct made){.seq = seq, .ack = flow->ack, .bits = draw(2) ? RST : RST | ACK});
}

/* Takes a flow for a new connection to one of the hosts: one that answers, one that is silent, one without a way. Few of its old
   connections are left open, so that there is always room for more. */
static struct flow *aim(struct flow *flow)
{
    static const uint8_t SERVERS[][4] = {{10, 0, 2, 2}, {198, 51, 100, 1}, {203, 0, 113, 1}};
    static const uint16_t PORTS[] = {ECHO, ECHO, ECHO, ECHO, CLOSES, CLOSES, RESETS, NOBODY};
    if (flow->phase == OPEN && draw(256))
        reset_of(flow, flow->seq);
    memcpy(&flow->server, SERVERS[draw(8) < 6 ? 0 : draw(3)], sizeof flow->server);
    flow->server_port = PORTS[draw(8)];
    flow->seq = draw32();
    flow->phase = OPENING;
    return flow;
}

static void syn_of(struct flow *flow)
{
    struct made made = {.seq = flow->seq++, .bits = SYN, .window = (uint16_t)draw(65536), .needs_sum = draw(2) == 0};
    if (draw(2))
        made.options = 4, memcpy(made.option, (uint8_t[]){2, 4, 5, 180}, 4);
    if (draw(4) == 0)
        made.text = draw(TEXT);
    go(flow, &made);
}

/* SYNs that are no segments: a wrong checksum, an offset below 5 words or behind the end, an option that is none, padding. */
static void bad_syns(void)
{
    static const uint8_t BAD[][4] = {{2, 0, 0, 0}, {2, 1, 0, 0}, {2, 40, 5, 180}, {3, 3, 255, 2}, {0, 1, 2, 3}, {1, 1, 1, 5}};
    struct flow *flow = aim(&flows[draw(SOME)]);
    struct made made = {.seq = flow->seq, .bits = SYN, .window = 1000};
    uint32_t choice = draw(3);
    if (choice == 0)
        made.has_bad_sum = 1;
    else if (choice == 1)
        made.offset = (int)(draw(2) ? 1 + draw(4) : 6 + draw(10));
    else
        memcpy(made.option, BAD[draw(6)], made.options = 4);
    if (choice != 0)
        made.needs_sum = draw(2) == 0;
    flow->phase = IDLE;
    go(flow, &made);
}

/* Options at random, of which some are right. */
static void draw_options(struct made *made)
{
    uint32_t most = draw(2) ? 6 : 256;
    made->options = 4 * (size_t)draw(OPTIONS / 4 + 1);
    for (size_t at = 0; at < made->options; at++)
        made->option[at] = (uint8_t)draw(most);
}

/* SYNs with such options. */
static void options(void)
{
    struct flow *flow = aim(&flows[draw(SOME)]);
    struct made made = {.seq = flow->seq++, .bits = SYN, .window = 1000, .needs_sum = draw(2) == 0};
    draw_options(&made);
    go(flow, &made);
}

/* SYNs that nobody follows up. */
static void half_open(void) { syn_of(aim(&flows[draw(SOME)])); }

/* All of them to one host and port, from each port in turn. */
static void one_place(void)
{
    static uint32_t turn;
    struct flow *flow = aim(&flows[turn++ % FLOWS]);
    flow->server = (tcpcore_addr){{10, 0, 2, 2}}, flow->server_port = ECHO, flow->phase = IDLE;
    syn_of(flow);
}

/* A SYN and the reset behind it, also of many flows at once. */
static void resets(void)
{
    struct flow *some[16];
    uint32_t count = 1 + draw(16);
    for (uint32_t at = 0; at < count; at++)
        syn_of(some[at] = aim(&flows[draw(SOME)]));
    if (draw(4) == 0)
        usleep(draw(300));
    for (uint32_t at = 0; at < count; at++)
        reset_of(some[at], some[at]->seq);
}

static void scan(void)
{
    struct flow *flow = aim(&flows[draw(SOME)]);
    flow->server_port = (uint16_t)draw(65536);
    if (draw(2))
        flow->server.byte[3] = (uint8_t)draw(256);
    syn_of(flow);
}

/* Text to the echo, whose answers find windows of nothing, of a few bytes, or of much. */
void windows(void)
{
    struct flow *flow = some_flow(OPEN);
    if (flow->phase != OPEN) {
        syn_of(aim(flow));
        return;
    }
    uint32_t text = draw(3) ? draw(TEXT) : 1, gap = draw(8) ? 0 : draw(20000);
    uint16_t window = (uint16_t)(draw(2) ? draw(4) : draw(65536));
    go(flow, &(struct made){.seq = flow->seq + gap, .ack = flow->ack - (draw(4) ? 0 : draw(3000)), .bits = ACK | PSH,
                            .window = window, .text = text, .needs_sum = draw(2) == 0});
    if (gap == 0)
        flow->seq += text;
    if (draw(50) == 0)
        go(flow, &(struct made){.seq = flow->seq++, .ack = flow->ack, .bits = ACK | FIN, .window = window});
}

/* The same segment again and again: an acknowledgement, text, a FIN, a SYN or a reset, old, new or of the future. */
static void storm(void)
{
    static const unsigned BITS[] = {ACK, ACK, ACK | FIN, SYN, SYN | ACK, RST, RST | ACK, ACK | PSH};
    struct flow *flow = some_flow(OPEN);
    if (flow->phase != OPEN) {
        syn_of(aim(flow));
        return;
    }
    struct made made = {.seq = flow->seq + (draw(3) ? draw(200000) - 100000 : draw32()), .bits = BITS[draw(8)], .window = 100,
                        .ack = flow->ack + (draw(2) ? draw(2000) - 1000 : 0), .text = draw(2) ? draw(TEXT) : 0};
    for (uint32_t turn = 1 + draw(50); turn > 0; turn--)
        go(flow, &made);
}

/* To one connection, each of what doesn't fit it: an acknowledgement, text, a FIN and a SYN from before its window, a reset within it, an
   acknowledgement of what wasn't sent. */
static void unfit(void)
{
    static uint32_t turn;
    struct flow *flow = &flows[0];
    if (flow->phase != OPEN) {
        if (flow->phase == IDLE)
            aim(flow)->server = (tcpcore_addr){{10, 0, 2, 2}}, flow->server_port = ECHO;
        else
            flow->seq--; /* the same SYN again */
        syn_of(flow);
        usleep(1000);
        read_answers();
        return;
    }
    const struct made made[] = {{.seq = flow->seq - 1000, .bits = ACK}, {.seq = flow->seq - 1000, .bits = ACK, .text = 100},
                                {.seq = flow->seq - 1000, .bits = ACK | FIN, .text = 100}, {.seq = flow->seq - 1000, .bits = SYN},
                                {.seq = flow->seq + 1, .bits = RST, .text = 1}, {.seq = flow->seq, .bits = ACK}};
    struct made next = made[turn++ % 6];
    next.ack = flow->ack + (next.seq == flow->seq ? 70000 : 0), next.window = 1000;
    go(flow, &next);
}

/* Anything, of any flow. */
static void noise(void)
{
    struct flow *flow = draw(2) ? some_flow(OPEN) : &flows[draw(SOME)];
    if (flow->phase == IDLE)
        aim(flow)->phase = IDLE;
    struct made made = {.seq = flow->seq + draw(9) - 4, .ack = flow->ack + draw(9) - 4, .bits = draw(256), .window = (uint16_t)draw(9),
                        .text = draw(2) ? draw(TEXT) : draw(3), .has_bad_sum = draw(8) == 0};
    draw_options(&made);
    go(flow, &made);
}

/* Connections that end in each way, so that some are opened anew in TIME-WAIT. */
static void endings(void)
{
    struct flow *flow = some_flow(OPEN);
    if (flow->phase != OPEN) {
        syn_of(aim(flow));
        return;
    }
    go(flow, &(struct made){.seq = flow->seq++, .ack = flow->ack, .bits = ACK | FIN, .window = 5000});
    if (draw(3) == 0)
        reset_of(flow, flow->seq);
    if (draw(2)) {
        flow->phase = OPENING, flow->seq += draw(100000);
        syn_of(flow);
    }
}

static const struct kind { const char *name; void (*make)(void); } KINDS[] = {
    {"bad_syns", bad_syns}, {"options", options}, {"half_open", half_open}, {"resets", resets}, {"scan", scan}, {"windows", windows}, {"storm", storm},
    {"noise", noise}, {"packets", packets}, {"endings", endings}, {"one_place", one_place},
    {"unfit", unfit}, {"datagrams", datagrams}, {"messages", messages}, {"errors", errors}, {"pieces", pieces}, {"sixes", sixes}, {"pieces6", pieces6}};
enum { COUNT = sizeof KINDS / sizeof KINDS[0] };

static int open_device(const char *name)
{
    char file[64];
    struct sockaddr_ll at = {.sll_family = AF_PACKET, .sll_protocol = htons(ETH_P_IP), .sll_ifindex = (int)if_nametoindex(name)};
    snprintf(file, sizeof file, "/sys/class/net/%.15s/statistics/tx_dropped", name);
    device = socket(AF_PACKET, SOCK_RAW | SOCK_CLOEXEC, htons(ETH_P_IP));
    losses = open(file, O_RDONLY | O_CLOEXEC);
    return device >= 0 && losses >= 0 && bind(device, (struct sockaddr *)&at, sizeof at) == 0 &&
           setsockopt(device, SOL_PACKET, PACKET_VNET_HDR, &(int){1}, sizeof(int)) == 0 &&
           setsockopt(device, SOL_PACKET, PACKET_IGNORE_OUTGOING, &(int){1}, sizeof(int)) == 0;
}

/* One kind for some packets, or "all" of them in turns. */
int main(int number, char **words)
{
    const struct kind *kind = NULL;
    if (number < 4 || !open_device(number > 4 ? words[4] : "tun0"))
        return perror("fuzz KIND PACKETS SEED [DEVICE]"), 1;
    for (int at = 0; at < COUNT; at++)
        if (strcmp(words[1], KINDS[at].name) == 0)
            kind = &KINDS[at];
    wanted = strtoull(words[2], NULL, 10);
    state = strtoull(words[3], NULL, 10) * UINT64_C(0x9e3779b97f4a7c15) + 1;
    while (sent < wanted) {
        const struct kind *next = kind ? kind : &KINDS[draw(COUNT)];
        for (uint64_t end = sent + BURST; sent < end && sent < wanted;)
            next->make();
        read_answers();
        mind_losses();
    }
    printf("%llu\n", (unsigned long long)sent);
    return 0;
}
