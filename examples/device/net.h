/* net.h: Ethernet around IPv4: ARP (RFC 826), ICMP's echo (RFC 792), and TCP's segments in both directions. */
#ifndef NET_H
#define NET_H

#include "board.h"
#include "ip.h"

/* Of so many neighbours the Ethernet address is kept. */
enum { NEIGHBOURS = 8 };

struct net_neighbour {
    tcpcore_addr addr;
    uint8_t ethernet[6];
};

struct net {
    struct ip_net own;
    tcpcore_addr gateway; /* where packets for other networks go */
    uint8_t ethernet[6];  /* the board's own address */
    /* Takes a TCP segment that came from `src`. */
    void (*arrive)(tcpcore_addr src, const void *segment, size_t length);
    struct net_neighbour neighbour[NEIGHBOURS];
    uint32_t known;       /* so many neighbours were ever kept */
    uint8_t frame[FRAME_MOST];
};

/* A frame has come. */
void net_arrive(struct net *net, const uint8_t *frame, size_t length);

/* Sends a TCP segment in an IPv4 packet. Where the neighbour's address isn't known it is asked for, and the segment is lost, so that TCP
   sends it again. */
void net_send(struct net *net, tcpcore_addr to, const void *segment, size_t length);

#endif
