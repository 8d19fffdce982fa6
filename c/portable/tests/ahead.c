/* What copied_ahead of memory.c does beside the loop that it is for: over random places, lengths and windows the same bytes are
   copied, and the same loops stop, with it as without it. */
#include <setjmp.h>
#include <stdint.h>
#include <stdio.h>
#include <stdlib.h>
#include <string.h>

static jmp_buf back;
#define TCPCORE_STOP() longjmp(back, 1)
#define STEP static inline
enum { TABLE_AT = 0 };
#define TABLE_SIZE 0
#include "../memory.c"

enum { SIZE = 300, CASES = 200000 };

static u8 bytes[2][WINDOWS * SIZE];
static Memory memories[2];
static unsigned long ahead, stopped, came_back;

static u32 below(u32 bound)
{
    static u64 state = 88172645463325252u;
    state ^= state << 13, state ^= state >> 7, state ^= state << 17;
    return (u32)(state >> 32) % bound;
}

/* The loop, as wasm2c writes it: four bytes a turn, until the place is the end. */
static void copy(const Memory *memory, u64 to, u64 from, u64 end, int is_ahead)
{
    u64 at = 0;
    if (is_ahead) {
        at += copied_ahead(memory, to + at, from + at, end - at);
        ahead += at > 0;
    }
    do {
        for (u64 i = 0; i < 4; i++)
            i32_store8(memory, (u32)(to + at + i), i32_load8_u(memory, (u32)(from + at + i)));
        at += 4;
    } while (at != end);
}

static u32 somewhere(void)
{
    u32 window = below(WINDOWS), at = below(4) ? below(SIZE / 2) : below(SIZE + 8);
    return WINDOW(window) + at;
}

/* Whether the loop stopped. */
static int stops(int is_ahead, u64 to, u64 from, u64 end)
{
    if (setjmp(back))
        return 1;
    copy(&memories[is_ahead], to, from, end, is_ahead);
    return 0;
}

int main(void)
{
    for (int which = 0; which < 2; which++)
        for (int window = 0; window < WINDOWS; window++) {
            struct window there = {bytes[which] + window * SIZE, SIZE};
            memories[which].read[window] = memories[which].written[window] = there;
        }
    memories[0].written[IN_READ].size = memories[1].written[IN_READ].size = 0;
    for (int number = 0; number < CASES; number++) {
        u32 from = somewhere(), to = below(3) ? somewhere() : from + below(40) - 20;
        u64 end = 4 * (u64)(1 + below(60)) + (below(20) ? 0 : below(4));
        for (int i = 0; i < WINDOWS * SIZE; i++)
            bytes[0][i] = bytes[1][i] = (u8)below(256);
        int first = stops(0, to, from, end), other = stops(1, to, from, end);
        if (first != other || memcmp(bytes[0], bytes[1], sizeof bytes[0]) != 0) {
            printf("ahead: %lx to %lx, %lu bytes: %d and %d\n", (unsigned long)from, (unsigned long)to, (unsigned long)end, first, other);
            return 1;
        }
        stopped += (unsigned)first, came_back += !first;
    }
    printf("ahead: %lu loops came back, %lu stopped, %lu were done ahead\n", came_back, stopped, ahead);
    return ahead < CASES / 10 || stopped == 0;
}
