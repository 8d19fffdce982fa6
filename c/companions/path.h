/*
 * path.h: what ICMP says of the path of one connection, and how long its packets may be (RFC 9293, 3.9.2.2; RFC 1191; RFC 5927).
 *
 * This is C over tcpcore.h and icmp.h, tested and not proved. An error is unauthenticated: whoever knows the addresses and ports can write
 * one. So it has to quote a sequence number that is in flight (RFC 5927, 4.1); none ends a connection that is past its handshake (RFC
 * 5927, 5.2); and none makes its packets shorter than PATH_LEAST, or shorter than what the peer has acknowledged since, unless a
 * timeout bears it out (RFC 5927, 7.2).
 *
 * An end's MSS stays as the handshake had it. What it emits is cut into shorter segments where the path has become narrower, as a device
 * with segmentation offload would cut it (tcpcore_emit_train): path_piece does that, or a lesser `each` of a train, path_text.
 */
#ifndef TCPCORE_PATH_H
#define TCPCORE_PATH_H

#include "icmp.h"

/* PATH_LEAST: no error makes a packet shorter: 536 bytes of text and both headers (RFC 9293, 3.7.1). PATH_AGE: the milliseconds after
   which a longer packet is tried again (RFC 1191, 6.3). */
enum { PATH_LEAST = 576, PATH_AGE = 600000 };

/* What path_error answers. */
enum {
    PATH_NOTHING = 0, /* it isn't about what is in flight, or says nothing new */
    PATH_SOFT = 1,    /* the user may want to know (SHLD-25): the end goes on (MUST-56) */
    PATH_HARD = 2,    /* nobody is there, and the handshake isn't done: abort the end (SHLD-26) */
    PATH_NARROWER = 3 /* packets are shorter from here on: tcpcore_resend_first, and emit */
};

/* The path of one connection. Its fields are read and not written by the caller. */
struct path {
    uint32_t mtu;          /* a packet has at most so many bytes */
    uint32_t first_mtu;    /* that of the link that it begins with */
    uint32_t isn;          /* the end's own initial sequence number */
    uint32_t longest;      /* the longest packet that was acknowledged */
    uint32_t sample;       /* a longer one that was sent, or 0; and the position behind it */
    uint64_t sample_end;
    uint32_t claimed;      /* what an error has claimed and a timeout hasn't borne out, or 0; and SND.UNA then */
    uint64_t claimed_at;
    uint64_t lowered_at;   /* when `mtu` became less than `first_mtu` */
    uint8_t may_be_cut;    /* the path is narrower than PATH_LEAST: ip_choices.may_be_cut, so that routers cut what it can't take */
    uint8_t type, code;    /* of the last error that was about this connection; both 0 where there was none */
};

/* Sets the path of an end with this initial sequence number, behind a link with this MTU, at least PATH_LEAST. */
void path_init(struct path *path, uint32_t isn, uint32_t mtu);

/* An error of icmp_read_error has come whose addresses and ports are the connection's: acts on it, and answers what the caller has to do.
   `status` is the end's. */
int path_error(struct path *path, const struct tcpcore_status *status, const struct icmp_error *error, uint64_t now);

/* A packet of `length` bytes was sent whose segment ends before this position. */
void path_sent(struct path *path, uint64_t end, size_t length);

/* SND.UNA is `una`, and the retransmission timer has run out where `timed_out`; in each turn of the loop. Whether packets are shorter from
   here on. */
int path_run(struct path *path, uint64_t una, int timed_out, uint64_t now);

/* The bytes of text that a segment with a header of `header` bytes has at most. */
size_t path_text(const struct path *path, size_t header);

/*
 * The next piece of a segment of `length` bytes that an end has emitted, summed or not, from `src` to `dst`: it is written to `out`, with
 * its checksum, and its length answered; 0 where none is left. *from is 0 for the first piece, and changed by each. Of a segment that is
 * short enough the piece is the whole. FIN and PSH are of the last piece alone.
 */
size_t path_piece(const struct path *path, const uint8_t *segment, size_t length, size_t *from, uint8_t *out, tcpcore_addr src, tcpcore_addr dst);

#endif
