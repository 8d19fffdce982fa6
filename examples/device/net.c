/* Ethernet, ARP, IPv4 and ICMP's echo, see net.h. */
#include "net.h"

#include <string.h>

/* Where fields lie: in a frame, in an ARP packet behind its header, and in the IPv4 header. */
enum { TYPE = 12, PAYLOAD = 14, ARP_LENGTH = 28, OPERATION = 6, SENDER = 8, SENDER_ADDR = 14, TARGET = 18, TARGET_ADDR = 24, PROTOCOL = 9 };
enum { IPV4 = 0x0800, ARP = 0x0806, REQUEST = 1, REPLY = 2, ICMP = 1, ECHO_HEADER = 8, ECHO_REPLY = 0, ECHO = 8 };

/* What ARP of IPv4 over Ethernet begins with (RFC 826). */
static const uint8_t ARP_BEGINS[OPERATION] = {0, 1, 8, 0, 6, 4};
static const uint8_t EVERYBODY[6] = {255, 255, 255, 255, 255, 255};

static uint32_t read16(const uint8_t *at) { return (uint32_t)(at[0] << 8 | at[1]); }

static void write16(uint8_t *at, uint32_t value)
{
    at[0] = (uint8_t)(value >> 8);
    at[1] = (uint8_t)value;
}

/* The Internet checksum of bytes, an even number of which come first (RFC 1071). */
static uint32_t checksum(const uint8_t *bytes, size_t length)
{
    uint32_t sum = 0;
    for (size_t at = 0; at < length; at++)
        sum += at % 2 ? bytes[at] : (uint32_t)bytes[at] << 8;
    while (sum >> 16)
        sum = (sum & 0xffff) + (sum >> 16);
    return sum ^ 0xffff;
}

/* Sends the payload that is in the frame already. */
static void send_frame(struct net *net, const uint8_t *to, uint32_t type, size_t length)
{
    memcpy(net->frame, to, 6);
    memcpy(net->frame + 6, net->ethernet, 6);
    write16(net->frame + TYPE, type);
    board_send(net->frame, PAYLOAD + length);
}

static void send_arp(struct net *net, uint32_t operation, const uint8_t *ethernet, tcpcore_addr addr)
{
    uint8_t *arp = net->frame + PAYLOAD;
    memcpy(arp, ARP_BEGINS, sizeof ARP_BEGINS);
    write16(arp + OPERATION, operation);
    memcpy(arp + SENDER, net->ethernet, 6);
    memcpy(arp + SENDER_ADDR, net->own.addr.byte, 4);
    memcpy(arp + TARGET, ethernet, 6);
    memcpy(arp + TARGET_ADDR, addr.byte, 4);
    send_frame(net, ethernet, ARP, ARP_LENGTH);
}

static struct net_neighbour *find(struct net *net, tcpcore_addr addr)
{
    for (uint32_t at = 0; at < NEIGHBOURS && at < net->known; at++)
        if (memcmp(net->neighbour[at].addr.byte, addr.byte, 4) == 0)
            return net->neighbour + at;
    return NULL;
}

/* Keeps who sent an ARP packet for this board, in the place of the one that was kept first; and answers a request (RFC 826). */
static void arrive_arp(struct net *net, const uint8_t *arp, size_t length)
{
    tcpcore_addr sender;
    if (length < ARP_LENGTH || memcmp(arp, ARP_BEGINS, sizeof ARP_BEGINS) != 0 || memcmp(arp + TARGET_ADDR, net->own.addr.byte, 4) != 0)
        return;
    memcpy(sender.byte, arp + SENDER_ADDR, 4);
    struct net_neighbour *neighbour = find(net, sender);
    if (!neighbour)
        neighbour = net->neighbour + net->known++ % NEIGHBOURS;
    neighbour->addr = sender;
    memcpy(neighbour->ethernet, arp + SENDER, 6);
    if (read16(arp + OPERATION) == REQUEST)
        send_arp(net, REPLY, neighbour->ethernet, sender);
}

static int is_near(const struct net *net, tcpcore_addr addr)
{
    uint32_t differs = 0;
    for (uint32_t bit = 0; bit < net->own.prefix; bit++)
        differs |= (uint32_t)(addr.byte[bit / 8] ^ net->own.addr.byte[bit / 8]) & (0x80U >> bit % 8);
    return differs == 0;
}

/* Sends the packet that is in the frame already. */
static void send_packet(struct net *net, tcpcore_addr to, size_t length)
{
    tcpcore_addr next = is_near(net, to) ? to : net->gateway;
    const struct net_neighbour *neighbour = find(net, next);
    if (neighbour)
        send_frame(net, neighbour->ethernet, IPV4, length);
    else
        send_arp(net, REQUEST, EVERYBODY, next);
}

void net_send(struct net *net, tcpcore_addr to, const void *segment, size_t length)
{
    size_t total = ip_write(net->frame + PAYLOAD, net->own.addr, to, length);
    memcpy(net->frame + PAYLOAD + IP_HEADER, segment, length);
    send_packet(net, to, total);
}

/* Answers an echo (RFC 792) in a packet that ip_read has found to be whole, for this board, and of another protocol than TCP. */
static void arrive_icmp(struct net *net, const uint8_t *packet)
{
    size_t header = 4 * (size_t)(packet[0] & 15), length = read16(packet + 2) - header;
    const uint8_t *echo = packet + header;
    uint8_t *answer = net->frame + PAYLOAD;
    tcpcore_addr from;
    if (packet[PROTOCOL] != ICMP || length < ECHO_HEADER || echo[0] != ECHO || checksum(echo, length) != 0)
        return;
    memcpy(from.byte, packet + 12, 4);
    size_t total = ip_write(answer, net->own.addr, from, length);
    answer[PROTOCOL] = ICMP;
    write16(answer + 10, 0);
    write16(answer + 10, checksum(answer, IP_HEADER));
    memcpy(answer + IP_HEADER, echo, length);
    answer[IP_HEADER] = ECHO_REPLY;
    write16(answer + IP_HEADER + 2, 0);
    write16(answer + IP_HEADER + 2, checksum(answer + IP_HEADER, length));
    send_packet(net, from, total);
}

void net_arrive(struct net *net, const uint8_t *frame, size_t length)
{
    struct ip_packet packet;
    if (length < PAYLOAD)
        return;
    if (read16(frame + TYPE) == ARP)
        arrive_arp(net, frame + PAYLOAD, length - PAYLOAD);
    if (read16(frame + TYPE) != IPV4)
        return;
    int answer = ip_read(net->own, frame + PAYLOAD, length - PAYLOAD, &packet);
    if (answer == IP_DONE)
        net->arrive(packet.src, packet.segment, packet.length);
    if (answer == IP_OTHER_PROTOCOL)
        arrive_icmp(net, frame + PAYLOAD);
}
