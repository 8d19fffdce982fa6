/*
 * tun.h: a TUN device inside a network namespace, brought up with address and default route, read and written from
 * outside it; or a TAP device that somebody has made there.
 */
#ifndef TCPCORE_TUN_H
#define TCPCORE_TUN_H

#include <stdint.h>
#include <sys/types.h>

/* The least header that a device with offloads puts in front of a packet (struct virtio_net_hdr). */
enum { TUN_HEADER = 10 };

struct tun_config {
    const char *space;  /* the file of the namespace, as /proc/PID/ns/net */
    const char *users;  /* the file of the user namespace that is entered first, or NULL */
    pid_t pid;          /* where that is NULL the process whose user namespace is entered first, unless by root; or 0 */
    const char *name;   /* of the device */
    uint32_t addr;      /* the namespace's address, its highest byte first in the number */
    uint32_t prefix;    /* bits of its network's number */
    uint32_t gateway;   /* of a TAP device that configures: the address behind which all others are */
    uint32_t mtu;       /* of the device, 576 to 65,535 */
    int configures;     /* whether a TAP device that is there already is given its address, MTU and route */
    int has_ipv6;        /* whether it has IPv6, too: then fd00::100 is the namespace's address, and fd00::2 a TAP device's gateway */
    int offloads;       /* whether packets of more than the MTU are exchanged, each behind a TUN_HEADER */
};

/* Whether packets of the device lie behind an Ethernet header, since it is a TAP device. Then *addr is the namespace's own of its two. */
int tun_is_tap(int queue, uint8_t addr[6]);

/*
 * Makes the device with `count` queues, 1 to 256, and brings it up; or attaches to a TAP device of this name. The
 * descriptors of the queues don't block. A packet of the namespace comes out of the queue that its connection's last packet went
 * into, or else of one by a hash. Whether it could; where not, there is a line on stderr.
 */
int tun_open(const struct tun_config *config, int *queues, uint32_t count);

#endif
