/* What is done in turn (see usernet.h): packets of the device, sockets, times. C over the companions of tcpcore.h, tested and not
   proved. */
#define _GNU_SOURCE
#include "usernet.h"
#include "companions/segment.h"

#include <errno.h>
#include <linux/virtio_net.h>
#include <stdio.h>
#include <string.h>
#include <sys/epoll.h>
#include <sys/socket.h>
#include <time.h>
#include <unistd.h>

enum { EVENTS = 256, BATCH = 128 };

static uint64_t milliseconds(void)
{
    struct timespec time;
    clock_gettime(CLOCK_MONOTONIC, &time);
    return (uint64_t)time.tv_sec * 1000 + (uint64_t)time.tv_nsec / 1000000;
}

static void to_device(const void *packet, size_t length, void *context)
{
    struct usernet *net = context;
    count(net, EMITTED, write(net->device, packet, length) > 0); /* what it can't take is lost, and sent again */
}

/* A packet goes on its way, on which there are faults in tests alone. */
static void pass(struct usernet *net, struct faults *faults, const void *packet, size_t length,
                 void (*go)(const void *packet, size_t length, void *context))
{
    if (faults->percent == 0)
        go(packet, length, net);
    else
        faults_pass(faults, packet, length, go, net);
}

/* One of a local administration (IEEE 802). */
const struct ethernet_addr GATEWAY_ETHERNET = {{0x52, 0x55, 10, 0, 2, 2}};

/* Puts an Ethernet header between the device's header and the packet, for which there is room before both. */
static uint8_t *with_ethernet(const struct usernet *net, uint8_t *frame)
{
    struct virtio_net_hdr front;
    memcpy(&front, frame, TUN_HEADER);
    if (front.flags & VIRTIO_NET_HDR_F_NEEDS_CSUM)
        front.hdr_len = (uint16_t)(front.hdr_len + ETHERNET_HEADER), front.csum_start = (uint16_t)(front.csum_start + ETHERNET_HEADER);
    frame -= ETHERNET_HEADER;
    memcpy(frame, &front, TUN_HEADER);
    ethernet_write(frame + TUN_HEADER, net->host, GATEWAY_ETHERNET, frame[TUN_HEADER + ETHERNET_HEADER] >> 4 == 6 ? ETHERNET_IPV6 : ETHERNET_IPV4);
    return frame;
}

/* The device may have no header. */
void pass_on_wire(struct usernet *net, uint8_t *frame, size_t length)
{
    size_t front = net->offloads ? 0 : TUN_HEADER;
    if (net->is_tap)
        frame = with_ethernet(net, frame), length += ETHERNET_HEADER;
    pass(net, &net->down, frame + front, length - front, to_device);
}

/* The same of a packet whose addresses may be surrogates. */
static void pass_down(struct usernet *net, uint8_t *frame, size_t length)
{
    if (frame[TUN_HEADER + 16] >= 0xf0)
        frame = v6_write(net, frame, &length);
    if (frame)
        pass_on_wire(net, frame, length);
}

/* Who asks for the gateway's Ethernet address, or for the name server's, is told. */
static void answer_arp(struct usernet *net, const uint8_t *frame, size_t length)
{
    uint8_t answer[TUN_HEADER + ETHERNET_ANSWER] = {0}, *at = answer + TUN_HEADER;
    size_t count = ethernet_answer(at, frame, length, GATEWAY_ETHERNET, net->gateway);
    if (count == 0)
        count = ethernet_answer(at, frame, length, GATEWAY_ETHERNET, net->resolver);
    if (count > 0)
        to_device(net->offloads ? answer : at, (net->offloads ? TUN_HEADER : 0) + count, net);
}

/* Nothing of it is left to the device, whose header is all zero where there is one. */
static void send_chosen(struct usernet *net, size_t length, tcpcore_addr from, tcpcore_addr to, uint8_t protocol, const struct ip_choices *choices)
{
    uint8_t *frame = segment_place(net) - TRAINS_FRONT;
    memset(frame, 0, TUN_HEADER);
    pass_down(net, frame, TUN_HEADER + ip_write_chosen(frame + TUN_HEADER, from, to, length, protocol, choices));
}

void send_segment(struct usernet *net, size_t length, tcpcore_addr from, tcpcore_addr to, int may_be_cut)
{
    struct ip_choices choices = {.may_be_cut = may_be_cut != 0, .id = may_be_cut ? ++net->next_id : 0};
    send_chosen(net, length, from, to, IP_TCP, &choices);
}

void send_packet(struct usernet *net, size_t length, tcpcore_addr from, tcpcore_addr to, uint8_t protocol)
{
    send_chosen(net, length, from, to, protocol, &(struct ip_choices){0});
}

void send_train(struct usernet *net, tcpcore_addr from, const struct tcpcore_train *train)
{
    uint8_t *frame = segment_place(net) - TRAINS_FRONT;
    pass_down(net, frame, trains_write(frame, from, train));
}

static void take_packet(struct usernet *net, const struct ip_packet *packet, uint8_t protocol, int vouched)
{
    if (protocol == IP_UDP)
        relays_datagram(net, packet, vouched);
    else if (protocol != IP_TCP)
        relays_message(net, packet, protocol);
    else
        arrive(net, packet, vouched);
}

/* What lies behind the Ethernet header of a frame, where that is a packet, else NULL; a question is answered. The namespace's address is from
   then on that of this frame: somebody may have given the device another one. */
static const uint8_t *without_ethernet(struct usernet *net, const uint8_t *bytes, size_t *length)
{
    if (*length < ETHERNET_HEADER)
        return NULL;
    net->host = ethernet_src(bytes);
    if (ethernet_type(bytes) != ETHERNET_IPV4 && ethernet_type(bytes) != ETHERNET_IPV6) {
        answer_arp(net, bytes, *length);
        return NULL;
    }
    *length -= ETHERNET_HEADER;
    return bytes + ETHERNET_HEADER;
}

/* A packet that came. */
struct arrival {
    const uint8_t *bytes;
    size_t length;
    int vouched; /* whether its checksum needs no look */
};

/* Reads the packet of an arrival; one that was cut is read once its last piece has come. Whether there is one. */
static int read_packet(struct usernet *net, struct arrival *arrival, struct ip_packet *found, uint8_t *protocol)
{
    struct ip_net to = {.prefix = 32};
    net->hops = arrival->bytes[arrival->bytes[0] >> 4 == 6 ? 7 : 8];
    if (arrival->bytes[0] >> 4 == 6) {
        int is_there = v6_read(net, arrival->bytes, arrival->length, arrival->vouched, found, protocol);
        arrival->vouched = 1;
        return is_there;
    }
    if (arrival->bytes[16] >= 224)
        return 0;
    memcpy(&to.addr, arrival->bytes + 16, sizeof to.addr);
    int answer = ip_read_any(to, arrival->bytes, arrival->length, found, protocol);
    if (answer != IP_FRAGMENT)
        return answer == IP_DONE;
    count(net, PIECES, 1);
    if (fragments_add(&net->fragments, arrival->bytes, arrival->length, net->now, &arrival->bytes, &arrival->length) != FRAGMENTS_WHOLE)
        return 0;
    count(net, JOINED, 1);
    arrival->vouched = 0;
    return ip_read_any(to, arrival->bytes, arrival->length, found, protocol) == IP_DONE;
}

/* A frame of the device. What goes to many hosts, or by broadcast, has no host behind it, and is answered by nobody (RFC 1122, 3.2.2; RFC
   9293, 3.9.2.3). */
static void from_device(const void *frame, size_t all, void *context)
{
    struct usernet *net = context;
    struct arrival arrival = {.bytes = frame, .length = all};
    struct ip_packet found;
    uint8_t protocol;
    if (net->offloads)
        arrival.bytes = trains_read(frame, all, &arrival.length, &arrival.vouched);
    if (arrival.bytes && net->is_tap)
        arrival.bytes = without_ethernet(net, arrival.bytes, &arrival.length);
    if (!arrival.bytes || arrival.length < IP_HEADER)
        return;
    if (!read_packet(net, &arrival, &found, &protocol) || (protocol != IP_TCP && protocol != IP_UDP && protocol != IP_ICMP && protocol != IP6_ICMP))
        return;
    if (found.length < (protocol == IP_TCP ? SEGMENT_HEADER : UDP_HEADER))
        count(net, MALFORMED, 1);
    else
        take_packet(net, &found, protocol, arrival.vouched);
}

/* Whether a read that answered this says that there is no device any more: somebody may delete it from inside of the namespace. */
static int is_gone(ssize_t got)
{
    return got == 0 || (got < 0 && (errno == EBADFD || errno == EBADF || errno == ENODEV || errno == ENXIO || errno == EIO));
}

static void read_device(struct usernet *net)
{
    for (int at = 0; at < BATCH; at++) {
        ssize_t got = read(net->device, net->frame, sizeof net->frame);
        net->is_gone |= is_gone(got);
        if (got <= 0)
            return;
        count(net, ARRIVED, 1);
        pass(net, &net->up, net->frame, (size_t)got, from_device);
    }
}

static int watch(struct usernet *net, int descriptor, uint32_t events, uint64_t number)
{
    struct epoll_event event = {.events = events, .data.u64 = number};
    return epoll_ctl(net->events, EPOLL_CTL_ADD, descriptor, &event) == 0;
}

/* A socket of a connection, which may have been dropped since these events were found. */
static void take_socket(struct usernet *net, struct conn *conn, uint32_t events)
{
    if (conn->is_dropped)
        return;
    conn->can_read |= (events & (EPOLLIN | EPOLLRDHUP | EPOLLHUP | EPOLLERR)) != 0;
    conn->can_write |= (events & (EPOLLOUT | EPOLLHUP | EPOLLERR)) != 0;
    wake(net, conn);
}

/* An event's number is one of usernet.h, and else the address of a connection, or one more than that of a relay. */
static void take_event(struct usernet *net, const struct epoll_event *event, void (*signalled)(void))
{
    if (event->data.u64 < LISTENERS)
        ports_take(net, event->data.u64);
    else if (event->data.u64 == API)
        api_accept(net);
    else if (event->data.u64 >= CALLER && event->data.u64 < NAMED)
        api_take(net, event->data.u64 - CALLER);
    else if (event->data.u64 == DEVICE)
        read_device(net);
    else if (event->data.u64 == SIGNALS)
        signalled();
    else if (event->data.u64 == EXITS)
        net->stops = 1;
    else if (event->data.u64 & 1)
        relays_readable(net, (struct relay *)(uintptr_t)(event->data.u64 - 1), event->events);
    else
        take_socket(net, event->data.ptr, event->events);
}

/* What there is now, for whoever asks. */
static void report_now(struct usernet *net)
{
    net->counters[NOW] = net->connections;
    net->counters[MOST] = net->most;
    net->counters[HALF_OPEN] = net->half_open.count;
    net->counters[RESERVED] = net->reserved;
    net->counters[FLOWS_NOW] = net->relays.count + net->brief.count;
}

int loop_init(struct usernet *net, const uint8_t secret[16])
{
    /* The reader's address is one to which no packet of a network goes (RFC 1122, 3.2.1.3): what it reads is another's. */
    const tcpcore_config config = {.addr = {{127, 0, 0, 1}}, .port = 1, .mss = 64, .send_capacity = 1, .recv_capacity = 1, .limit = 1};
    net->events = epoll_create1(EPOLL_CLOEXEC);
    net->now = milliseconds();
    net->last_awake = &net->awake;
    pairs_init(&net->pairs, net->buckets, FLOW_BUCKETS, secret);
    pairs_init(&net->datagrams, net->datagram_buckets, FLOW_BUCKETS, secret);
    pairs_init(&net->echoes, net->echo_buckets, FLOW_BUCKETS, secret);
    fragments_init(&net->fragments, net->cut, CUT);
    pairs_init(&net->inward, net->inward_buckets, FLOW_BUCKETS, secret);
    return net->events >= 0 && ends_init(net) && tcpcore_new(&net->reader, &config, net->reader_block, sizeof net->reader_block) == TCPCORE_DONE &&
           ports_listen(net) && watch(net, net->device, EPOLLIN, DEVICE) && api_watch(net);
}

/* What was found together, then all that is awake; what was dropped on the way is freed behind both. */
static void loop_turn(struct usernet *net, void (*signalled)(void))
{
    struct epoll_event events[EVENTS];
    int wait = turn_wait(net), found = epoll_wait(net->events, events, EVENTS, api_wait(wait));
    net->now = milliseconds();
    if (net->listens_at && net->now >= net->listens_at)
        ports_listen(net);
    for (int at = 0; at < found; at++)
        take_event(net, &events[at], signalled);
    api_expire(net);
    relays_expire(net);
    turn_all(net);
    free_dropped(net);
    relays_free(net);
    report_now(net);
}

void loop_run(struct usernet *net, int signals, int exits, void (*signalled)(void))
{
    if (signals >= 0)
        watch(net, signals, EPOLLIN, SIGNALS);
    if (exits >= 0 && !watch(net, exits, 0, EXITS))
        perror("--exit-fd");
    while (!net->stops) {
        loop_turn(net, signalled);
        if (net->is_gone && !net->stops) {
            net->stops = net->status = 1;
            fputs("usernet: the device is gone\n", stderr);
        }
    }
    end_all(net);
    relays_end(net);
    api_end();
    report_now(net);
}
