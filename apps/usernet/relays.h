/* relays.h: what relays.c, which keeps relays, and datagrams.c, which moves packets through them, share. */
#ifndef USERNET_RELAYS_H
#define USERNET_RELAYS_H

#include "usernet.h"

/* The relay with this pair of this protocol, or NULL. */
struct relay *relay_find(struct usernet *net, const struct pair *key, uint8_t protocol);

/* One more, where the one that was silent for the longest time may make way: with a socket of its own, which it closes where it fails, or with
   that of a published port. NULL where there is none, with errno. */
struct relay *relay_new(struct usernet *net, const struct pair *key, uint8_t protocol, int socket);
struct relay *relay_new_inward(struct usernet *net, const struct pair *key, const struct pair *outer, int socket);

/* A packet went through. */
void relay_touch(struct usernet *net, struct relay *relay);

/* What is told of a packet that a relay has sent, and nobody keeps: its front, where an echo has this sequence number. */
void relay_front(const struct pair *key, uint8_t protocol, uint16_t sequence, uint8_t front[UNREACHABLE_FRONT]);

#endif
