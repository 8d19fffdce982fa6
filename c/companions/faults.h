/*
 * faults.h: a path that loses packets, doubles them, and lets some come late, for tests of what uses an end.
 *
 * This is C, tested and not proved.
 */
#ifndef TCPCORE_FAULTS_H
#define TCPCORE_FAULTS_H

#include <stddef.h>
#include <stdint.h>

/* The longest packet, and how many others pass one that comes late. */
enum { FAULTS_MOST = 65600, FAULTS_LATER = 4 };

/* One direction of a path. */
struct faults {
    uint32_t percent;           /* of the packets that are lost, as many doubled, and as many late: 0 to 33 */
    uint32_t state;             /* what chooses: the same choices for the same number at first */
    uint32_t passing;           /* how many others still pass the one that comes late */
    size_t length;              /* of that one, or 0 */
    uint8_t late[FAULTS_MOST];
};

/* A packet goes in, and `go` is called for each that comes out: none, one, or more. */
void faults_pass(struct faults *faults, const void *packet, size_t length,
                 void (*go)(const void *packet, size_t length, void *context), void *context);

#endif
