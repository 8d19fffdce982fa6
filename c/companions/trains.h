/*
 * trains.h: packets above the MTU, as a TUN device with offloads takes and gives them: one IPv4 and TCP header for
 * many segments of text that follow each other, behind the device's own header (struct virtio_net_hdr). Neither is summed
 * here: the device sums what it takes, and what it gives was never on a wire.
 *
 * This is C beside tcpcore.h, tested and not proved. The device cuts a train into its segments, or has never cut it.
 */
#ifndef TCPCORE_TRAINS_H
#define TCPCORE_TRAINS_H

#include "ip.h"
#include "tun.h"

/* The bytes of a frame that lie before its segment, the device's header and the IPv4 header; and of the longest frame. */
enum { TRAINS_FRONT = TUN_HEADER + IP_HEADER, TRAINS_ROOM = TRAINS_FRONT + TCPCORE_TRAIN_ROOM };

/*
 * Writes the front of a frame, from one address to another, whose segment tcpcore_emit_train or tcpcore_connection_emit_train has written
 * at frame + TRAINS_FRONT and reported: the device completes its checksum, and cuts it where it is several. Answers the frame's length.
 */
size_t trains_write(uint8_t *frame, tcpcore_addr src, const struct tcpcore_train *train);

/*
 * Of `length` bytes that the device gave: answers the packet within them, its length in *count, and in *vouched whether its TCP
 * checksum needs no look: the device has found it right, or has left it out of a packet of this machine's own. NULL where there is
 * no packet.
 */
const uint8_t *trains_read(const void *bytes, size_t length, size_t *count, int *vouched);

/* Writes the checksum of a segment of at least 20 bytes (RFC 9293, 3.1), for one that was left without. */
void trains_sum(uint8_t *segment, size_t length, tcpcore_addr src, tcpcore_addr dst);

#endif
