/* The users of a stack that is behind sockets of this machine, for slirp.c: the calls of child.h but for stack_connect. */
#ifndef TCPTEST_SOCKETS_H
#define TCPTEST_SOCKETS_H

#include "child.h"

/* A socket from this port of loopback to that one: its handle, or -1. */
int sockets_connect(uint16_t from, uint16_t to, const struct wishes *wishes);

#endif
