/*
 * system.h: what static_block.c has in the place of a C library, for x86-64 and aarch64: the three functions of memory
 * that the library and compilers need, the system's calls, and where the program begins.
 */
#ifndef TCPCORE_SYSTEM_H
#define TCPCORE_SYSTEM_H

#include <stddef.h>
#include <stdint.h>

#if defined(__x86_64__)

enum { SYSTEM_WRITE = 1, SYSTEM_EXIT = 60 };

static long system_call(long number, long first, const void *second, size_t third)
{
    long answer;
    __asm__ volatile("syscall"
                     : "=a"(answer)
                     : "a"(number), "D"(first), "S"(second), "d"(third)
                     : "rcx", "r11", "memory");
    return answer;
}

/* The kernel jumps here, its stack at a multiple of 16. */
__asm__(".globl _start\n_start:\n\txor %ebp, %ebp\n\tcall begin\n\thlt");

#elif defined(__aarch64__)

enum { SYSTEM_WRITE = 64, SYSTEM_EXIT = 93 };

static long system_call(long number, long first, const void *second, size_t third)
{
    register long x8 __asm__("x8") = number;
    register long x0 __asm__("x0") = first;
    register const void *x1 __asm__("x1") = second;
    register size_t x2 __asm__("x2") = third;
    __asm__ volatile("svc #0" : "+r"(x0) : "r"(x8), "r"(x1), "r"(x2) : "memory");
    return x0;
}

__asm__(".globl _start\n_start:\n\tmov x29, #0\n\tmov x30, #0\n\tbl begin\n\tbrk #1");

#else
#error "another machine"
#endif

/* A byte at a time. What `hide` passes on the compiler can't follow: it makes no call of the same function of the loop. */
static unsigned char *hide(void *at)
{
    unsigned char *hidden = at;
    __asm__ volatile("" : "+r"(hidden));
    return hidden;
}

void *memcpy(void *restrict to, const void *restrict from, size_t size)
{
    const unsigned char *bytes = from;
    for (size_t at = 0; at < size; at++)
        *hide((unsigned char *)to + at) = bytes[at];
    return to;
}

void *memmove(void *to, const void *from, size_t size)
{
    const unsigned char *bytes = from;
    if ((uintptr_t)to - (uintptr_t)from >= size)
        return memcpy(to, from, size);
    for (size_t at = size; at-- > 0;)
        *hide((unsigned char *)to + at) = bytes[at];
    return to;
}

void *memset(void *to, int byte, size_t size)
{
    for (size_t at = 0; at < size; at++)
        *hide((unsigned char *)to + at) = (unsigned char)byte;
    return to;
}

#endif
