/* lwIP's settings for the checks: one end at a time, of our addresses, with the driver's clock. BUILD chooses one of four. */
#ifndef LWIPOPTS_H
#define LWIPOPTS_H

#define SHIPPED 1 /* as it ships, with full segments and a window of 64 KiB */
#define BLOCKS 2  /* the same, and it tells blocks (RFC 2018) */
#define TINY 3    /* the sizes that it ships with: 536 bytes, and windows of a few segments */
#define BARE 4    /* it keeps nothing that comes out of order */

#define NO_SYS 1
#define NO_SYS_NO_TIMERS 1
#define LWIP_TIMERS 0
#define SYS_LIGHTWEIGHT_PROT 0
#define LWIP_SOCKET 0
#define LWIP_NETCONN 0
#define LWIP_ARP 0
#define LWIP_UDP 0
#define LWIP_RAW 0
#define LWIP_ICMP 0
#define IP_FRAG 0
#define IP_REASSEMBLY 0
#define MEM_ALIGNMENT 8
#define MEM_LIBC_MALLOC 1
#define MEMP_MEM_MALLOC 1

#if BUILD != TINY
#define TCP_MSS 1460
#define TCP_WND 65535
#define TCP_SND_BUF 65535
#define TCP_SND_QUEUELEN 200
#define MEMP_NUM_TCP_SEG 256
#endif
#if BUILD == BLOCKS
#define LWIP_TCP_SACK_OUT 1
#endif
#if BUILD == BARE
#define TCP_QUEUE_OOSEQ 0
#endif

#endif
