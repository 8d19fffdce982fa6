/*
 * child.h: a stack in a program of its own, for tcptest. child.c has the program's main function and its loop; one file for each stack
 * has the functions below: ours.c, lwip.c, slirp.c, gvisor.c.
 *
 * The program is given two sockets by their numbers: one carries IPv4 packets both ways, the other one lines of text, each of which is
 * a user's call and is answered by a line. The clock stands still but for the call `run MILLISECONDS`. With --tun DEVICE PATH it is on
 * a TUN device and answers calls at the Unix socket PATH, and its clock is the machine's.
 */
#ifndef TCPTEST_CHILD_H
#define TCPTEST_CHILD_H

#include <stddef.h>
#include <stdint.h>

/* What stack_receive and stack_send answer in place of a count of bytes, and stack_connect in place of a handle where it has no such
   call. */
enum { STACK_UNKNOWN = -5, STACK_NOTHING = -1, STACK_ENDED = -2, STACK_RESET = -3, STACK_TIMED_OUT = -4 };

/* The most connections of one run, by their handles, and the most listeners. */
enum { HANDLES = 64, LISTENERS = 8 };

/* What a user wishes of a connection. 0 where nothing is wished, -1 of `nagle`, `ttl` and `service`. */
struct wishes {
    uint32_t capacity;       /* bytes of the receive buffer */
    uint32_t idle, interval; /* keep-alives, in milliseconds; interval 0: by the stack's own default */
    int keeps;               /* they are wished for */
    int nagle;
    int ttl, service;        /* of the IPv4 header: the time to live, and the differentiated services field */
    int is_known;            /* 0 where a word wasn't known */
};

extern uint64_t now; /* milliseconds */

/* The clock goes on by so many milliseconds at most before stack_turn is called. */
extern const unsigned stack_step;

/* A packet leaves the stack. */
void child_leave(const void *packet, size_t length);

void stack_begin(void);
void stack_arrive(const uint8_t *packet, size_t length);
void stack_turn(void); /* it is `now`: timers run, and what is due leaves */
int stack_listen(uint16_t port, const struct wishes *wishes);                                     /* 0 where it can't */
int stack_connect(uint16_t port, const uint8_t address[4], uint16_t to, const struct wishes *wishes); /* a handle, or -1 where it is refused */
int stack_accept(uint16_t port);                                                                  /* a handle, or -1 */
long stack_send(int handle, const void *text, size_t length);
long stack_receive(int handle, void *out, size_t room);
int stack_is_open(int handle);
void stack_close(int handle); /* this direction */
void stack_leave(int handle); /* the user is gone */
void stack_abort(int handle);
int stack_wish(int handle, const struct wishes *wishes); /* 0 where it can't */

#endif
