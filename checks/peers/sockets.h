/* The peer's user behind a socket of this machine (see peer.h), for slirp.c and kernel.c. */
#ifndef CHECKS_SOCKETS_H
#define CHECKS_SOCKETS_H

#include <netinet/in.h>

/* A new user: it listens at `at`, or connects from there to `to`. A `room` above 0 is that of what it hasn't read. */
void sockets_begin(struct sockaddr_in at, const struct sockaddr_in *to, int room);

/* Reads, sends, closes and aborts as the trial says. */
void sockets_use(void);

/* The connection is over for it: both directions are closed, or it was reset. */
int sockets_is_over(void);

void sockets_report(void);

#endif
