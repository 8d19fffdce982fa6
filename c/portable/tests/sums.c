/* What summed_ahead of memory.c does beside the loop that it is for: over random places, lengths, windows and bytes the sums, the place and
   the count are the same, and the same loops stop, with it as without it. */
#include <setjmp.h>
#include <stdint.h>
#include <stdio.h>
#include <stdlib.h>
#include <string.h>

static jmp_buf back;
#define TCPCORE_STOP() longjmp(back, 1)
#define STEP static inline
enum { TABLE_AT = 0 };
#define TABLE_SIZE 0
#include "../memory.c"

enum { SIZE = 2 * MOST_TURNS * TURN + 100, CASES = 40000 };

/* What the loop's variables hold. */
struct held {
    u64 place, count;
    u32 words[LANES], highs[LANES];
};

static u8 bytes[WINDOWS][SIZE];
static Memory memory;
static struct held held[2];
static unsigned long ahead, in_part, stopped, came_back;

static u32 below(u32 bound)
{
    static u64 state = 88172645463325252u;
    state ^= state << 13, state ^= state >> 7, state ^= state << 17;
    return (u32)(state >> 32) % bound;
}

/* The loop, as wasm2c writes it: LANES words a turn, until the count is 0. */
static void sum(struct held *it, int is_ahead)
{
    if (is_ahead) {
        u64 left = 0 - it->count;
        struct sums sums = summed_ahead(&memory, it->place, left);
        it->place += sums.length, it->count += sums.length;
        for (int k = 0; k < LANES; k++)
            it->words[k] += word_of(&sums, k), it->highs[k] += high_of(&sums, k);
        ahead += sums.length > 0, in_part += sums.length > 0 && sums.length < left - TURN;
    }
    do {
        for (int k = 0; k < LANES; k++) {
            u32 word = i32_load16_u(&memory, (u64)(u32)it->place + 2 * (unsigned)k);
            it->words[k] += word, it->highs[k] += word >> 8;
        }
        it->place += TURN, it->count += TURN;
    } while (it->count != 0);
}

/* Whether the loop stopped. */
static int stops(struct held *it, int is_ahead)
{
    if (setjmp(back))
        return 1;
    sum(it, is_ahead);
    return 0;
}

static void fill(void)
{
    int is_full = below(2) == 0;
    for (int window = 0; window < WINDOWS; window++)
        for (int i = 0; i < SIZE; i++)
            bytes[window][i] = is_full ? 255 : (u8)below(256);
}

/* A place, a count and sums, of which some lie at a window's end or beyond it, and some counts are those of no whole number of turns. */
static void choose(void)
{
    u32 turns = 1 + below(below(4) ? 20 : 3 * MOST_TURNS / 2), length = turns * TURN, at = below(SIZE);
    if (below(2))
        at = length <= SIZE ? SIZE - length + below(6) - below(3) : 0;
    held[0].place = WINDOW(below(WINDOWS)) + (u64)at;
    held[0].count = 0 - (u64)length + (below(20) ? 0 : below(TURN + 1));
    for (int k = 0; k < LANES; k++)
        held[0].words[k] = below(UINT32_MAX), held[0].highs[k] = below(UINT32_MAX);
    held[1] = held[0];
}

int main(void)
{
    for (int window = 0; window < WINDOWS; window++)
        memory.read[window] = (struct window){bytes[window], SIZE};
    for (int number = 0; number < CASES; number++) {
        if (number % 100 == 0)
            fill();
        choose();
        u64 place = held[0].place, count = held[0].count;
        int first = stops(&held[0], 0), other = stops(&held[1], 1);
        /* One that has stopped never comes back, whatever it holds. */
        if (first != other || (!first && memcmp(&held[0], &held[1], sizeof held[0]) != 0)) {
            printf("sums: from %llx, count %lld: %d and %d\n", (unsigned long long)place, (long long)count, first, other);
            return 1;
        }
        stopped += (unsigned)first, came_back += !first;
    }
    printf("sums: %lu loops came back, %lu stopped, %lu were done ahead, %lu of them in part\n", came_back, stopped, ahead, in_part);
    return ahead < CASES / 10 || in_part < CASES / 100 || stopped < CASES / 100;
}
