/*
 * The LM3S6965 evaluation board: its vectors, its start, its clock and its Ethernet controller (Stellaris LM3S6965 data sheet, chapters
 * 2, 3 and 16). It was run by qemu (-M lm3s6965evb) and by no board.
 */
#include "board.h"

#include <string.h>

/* What device.ld places. */
extern uint32_t stack_bottom[], stack_top[], data_from[], data_begin[], data_end[], bss_begin[], bss_end[];

#define REGISTER(address) (*(volatile uint32_t *)(address))
#define CLOCKS_OF_PERIPHERALS REGISTER(0x400fe108) /* RCGC2 */
#define TICK_CONTROL REGISTER(0xe000e010)
#define TICK_RELOAD REGISTER(0xe000e014)
#define TICK_VALUE REGISTER(0xe000e018)
#define RECEIVE_CONTROL REGISTER(0x40048008)
#define SEND_CONTROL REGISTER(0x4004800c)
#define FIFO REGISTER(0x40048010)
#define ADDRESS_LOW REGISTER(0x40048014)
#define ADDRESS_HIGH REGISTER(0x40048018)
#define FRAMES_THAT_CAME REGISTER(0x40048034)
#define SEND_REQUEST REGISTER(0x40048038)

enum {
    CYCLES = 12000,            /* of a millisecond: the internal oscillator, which runs after a reset, has some 12 MHz */
    TICK_RUNS = 7,             /* by the processor's clock, with an interrupt */
    RECEIVES = 1 << 0 | 1 << 3, /* and drops what has a wrong checksum */
    SENDS = 1 << 0 | 1 << 1 | 1 << 2 | 1 << 4, /* with padding, with a checksum, in both directions at once */
    CHECKSUM = 4, LENGTH = 2,  /* bytes behind a frame and before it in the controller's memory */
    HEADER = 14,
    PAINT = 0x5a5a5a5a
};

static volatile uint64_t now;

int main(void);
void start(void);

/* A fault, an interrupt that nobody asked for, or a configuration that was refused: the device stands still. */
static void stop(void)
{
    for (;;) {
    }
}

/* Paints the stack but for the words in use, fills RAM, and begins. */
void start(void)
{
    uint32_t *here = __builtin_frame_address(0);
    for (uint32_t *at = stack_bottom; at < here - 32; at++)
        *at = PAINT;
    memcpy(data_begin, data_from, (size_t)((uint8_t *)data_end - (uint8_t *)data_begin));
    memset(bss_begin, 0, (size_t)((uint8_t *)bss_end - (uint8_t *)bss_begin));
    main();
    stop();
}

static void tick(void) { now++; }

/* Where the processor finds its stack and its handlers. */
__attribute__((section(".vectors"), used)) static const struct {
    uint32_t *stack;
    void (*handler[15])(void);
} VECTORS = {stack_top, {start, stop, stop, stop, stop, stop, stop, stop, stop, stop, stop, stop, stop, stop, tick}};

void board_start(const uint8_t address[6])
{
    CLOCKS_OF_PERIPHERALS |= UINT32_C(1) << 28 | UINT32_C(1) << 30;
    TICK_RELOAD = CYCLES - 1;
    TICK_VALUE = 0;
    TICK_CONTROL = TICK_RUNS;
    ADDRESS_LOW = address[0] | (uint32_t)address[1] << 8 | (uint32_t)address[2] << 16 | (uint32_t)address[3] << 24;
    ADDRESS_HIGH = address[4] | (uint32_t)address[5] << 8;
    SEND_CONTROL = SENDS;
    RECEIVE_CONTROL = RECEIVES;
}

/* The clock has two words: they belong together where they are the same when read again. */
uint64_t board_now(void)
{
    uint64_t first, second = now;
    do {
        first = second;
        second = now;
    } while (first != second);
    return first;
}

size_t board_receive(uint8_t frame[FRAME_MOST])
{
    if (FRAMES_THAT_CAME == 0)
        return 0;
    uint32_t word = FIFO;
    size_t whole = word & 0xffff, length = whole - LENGTH - CHECKSUM;
    for (size_t at = LENGTH; at < whole; at++) {
        if (at % 4 == 0)
            word = FIFO;
        if (at < LENGTH + length && at < LENGTH + FRAME_MOST)
            frame[at - LENGTH] = (uint8_t)(word >> 8 * (at % 4));
    }
    return length <= FRAME_MOST ? length : 0;
}

void board_send(const uint8_t *frame, size_t length)
{
    uint32_t word = (uint32_t)(length - HEADER);
    while (SEND_REQUEST & 1) {
    }
    for (size_t at = LENGTH; at < LENGTH + length; at++) {
        word |= (uint32_t)frame[at - LENGTH] << 8 * (at % 4);
        if (at % 4 == 3 || at == LENGTH + length - 1) {
            FIFO = word;
            word = 0;
        }
    }
    SEND_REQUEST = 1;
}

void board_sleep(void) { __asm__ volatile("wfi"); }

size_t board_stack(void) { return 4 * (size_t)(stack_top - stack_bottom); }

size_t board_stack_used(void)
{
    const uint32_t *at = stack_bottom;
    while (at < stack_top && *at == PAINT)
        at++;
    return 4 * (size_t)(stack_top - at);
}
