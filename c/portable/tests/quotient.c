/* What quotient_of of memory.c answers, beside this machine's own division: over random values of all lengths, and where it stops. */
#include <setjmp.h>
#include <stdint.h>
#include <stdio.h>
#include <string.h>

static jmp_buf back;
#define TCPCORE_STOP() longjmp(back, 1)
#define STEP static inline
enum { TABLE_AT = 0 };
#define TABLE_SIZE 0
#include "../memory.c"

enum { CASES = 1000000 };

/* A value of up to 64 bits, as long as any. */
static u64 any(void)
{
    static u64 state = 88172645463325252u;
    state ^= state << 13, state ^= state >> 7, state ^= state << 17;
    return state >> (state >> 7 & 63);
}

static int stops_at_zero(void)
{
    if (setjmp(back) != 0)
        return 1;
    printf("quotient: %llu by 0\n", (unsigned long long)DIV_U(1, 0));
    return 0;
}

int main(void)
{
    unsigned long is_long = 0, is_short = 0;
    for (int number = 0; number < CASES; number++) {
        u64 value = number % 7 ? any() : UINT64_MAX - any() % 3, by = number % 5 ? any() : UINT64_MAX - any() % 3;
        if (by == 0)
            continue;
        if (DIV_U(value, by) != value / by) {
            printf("quotient: %llu by %llu\n", (unsigned long long)value, (unsigned long long)by);
            return 1;
        }
        if ((value | by) >> 32)
            is_long++;
        else
            is_short++;
    }
    printf("quotient: %lu of more than 32 bits, %lu others\n", is_long, is_short);
    return !stops_at_zero() || is_long < CASES / 10 || is_short < CASES / 10;
}
