/*
 * pairs.h: what goes by both addresses and both ports and isn't an end of TCP in a host: relays of datagrams and echoes, and connections whose
 * end isn't made yet.
 *
 * This is C beside tcpcore.h and secret.h, tested and not proved. Nodes are in the structs of their owners, the
 * buckets are the caller's. Nobody outside can choose who shares a bucket, since that is up to a secret.
 */
#ifndef USERNET_PAIRS_H
#define USERNET_PAIRS_H

#include "companions/secret.h"

/* A pair of sockets, and its place. */
struct pair {
    tcpcore_addr client, server;
    uint16_t client_port, server_port;
    struct pair *next; /* of its bucket */
};

struct pairs {
    struct pair **buckets;
    uint32_t count; /* buckets */
    uint8_t secret[16];
};

/* No pairs, in `count` buckets, at least 1. */
void pairs_init(struct pairs *pairs, struct pair **buckets, uint32_t count, const uint8_t secret[16]);

/* 64 secret bits of a pair; the lower half is good for an initial sequence number (RFC 9293, 3.4.1). */
uint64_t pairs_secret(const struct pairs *pairs, const struct pair *pair);

/* The pair of these sockets, or NULL. */
struct pair *pairs_find(const struct pairs *pairs, const struct pair *key);

/* Adds a pair that isn't there; it stays where it is until it is removed. */
void pairs_add(struct pairs *pairs, struct pair *pair);

/* Removes a pair that is there. */
void pairs_remove(struct pairs *pairs, struct pair *pair);

#endif
