/* lwIP's settings. All that isn't named here is as lwIP ships it: what is named makes room for full segments and windows of
 * 64 KiB, and leaves out what the bench has no use for. With BEST its checks and counts are left out too, and checksums are taken while
 * it copies (its second checksum loop, the one that it ships with, is the fastest where the compiler makes lanes of it). */
#ifndef LWIPOPTS_H
#define LWIPOPTS_H

#define NO_SYS 1
#define SYS_LIGHTWEIGHT_PROT 0
#define LWIP_SOCKET 0
#define LWIP_NETCONN 0
#define LWIP_ARP 0
#define LWIP_UDP 0
#define LWIP_RAW 0
#define LWIP_ICMP 0
#define IP_FRAG 0
#define IP_REASSEMBLY 0

#define MEM_ALIGNMENT 8
#define MEM_SIZE (1 << 20)
#define MEMP_NUM_TCP_SEG 256
#define PBUF_POOL_SIZE 256
#define TCP_MSS 1460
#define TCP_WND 65535
#define TCP_SND_BUF 65535
#define TCP_SND_QUEUELEN 200

/* Both ends stand in one stack: a packet leaves by the end that it comes from. */
struct netif;
struct ip4_addr;
struct netif *end_of(const struct ip4_addr *src);
#define LWIP_HOOK_IP4_ROUTE_SRC(src, dest) end_of(src)

#ifdef BEST
#define LWIP_NOASSERT
#define LWIP_STATS 0
#define LWIP_CHECKSUM_ON_COPY 1
#endif

#endif
