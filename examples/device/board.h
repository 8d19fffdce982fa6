/*
 * board.h: what the server wants of a board: a clock, an Ethernet controller, and sleep. board.c has it for the LM3S6965 evaluation
 * board (Cortex-M3, 256 KiB of flash, 64 KiB of RAM); for another one write that file anew.
 */
#ifndef BOARD_H
#define BOARD_H

#include <stddef.h>
#include <stdint.h>

/* The greatest frame, without its checksum; and the least (IEEE 802.3). */
enum { FRAME_MOST = 1514, FRAME_LEAST = 60 };

/* Starts the clock, and the Ethernet controller with this address. */
void board_start(const uint8_t address[6]);

/* Milliseconds since board_start. */
uint64_t board_now(void);

/* Takes a frame that has come: its length, at most FRAME_MOST, or 0 where there is none. A longer one is dropped. */
size_t board_receive(uint8_t frame[FRAME_MOST]);

/* Sends a frame of at most FRAME_MOST bytes, from its addresses on. */
void board_send(const uint8_t *frame, size_t length);

/* Sleeps until the next interrupt, a millisecond at most. */
void board_sleep(void);

/* The bytes of stack that there are, and how many were ever used. */
size_t board_stack(void);
size_t board_stack_used(void);

#endif
