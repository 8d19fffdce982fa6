/*
 * secret.h: what only who knows a secret can tell: SipHash-2-4 of bytes, and by it the initial sequence number of a connection (RFC 9293,
 * 3.4.1; RFC 6528, 3).
 *
 * This is C beside tcpcore.h, tested and not proved. A secret is 128 bits of a source of random numbers, such as getentropy, drawn once.
 */
#ifndef TCPCORE_SECRET_H
#define TCPCORE_SECRET_H

#include "tcpcore.h"

/* SipHash-2-4 of these bytes, of which there are at most 255. */
uint64_t secret_hash(const uint8_t secret[16], const uint8_t *bytes, size_t length);

/*
 * The initial sequence number of the connection between these two at `now`, in microseconds: a clock that goes on by one in 4 microseconds,
 * and what the secret makes of the four values, so that nobody else can tell that of another connection.
 */
uint32_t secret_isn(const uint8_t secret[16], tcpcore_addr own, uint16_t own_port, tcpcore_addr peer, uint16_t port, uint64_t now);

#endif
