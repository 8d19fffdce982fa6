/*
 * resident ECHOES: how many bytes of one end's block of 64 KiB each way are resident when it has been opened, after one echo of 64 bytes,
 * and after so many. Over the C library.
 */
#define _DEFAULT_SOURCE
#include "tcpcore.h"

#include <stdio.h>
#include <stdlib.h>
#include <sys/mman.h>

enum { CAPACITY = 65536, BLOCK = TCPCORE_MEMORY(CAPACITY, CAPACITY), PAGE = 4096, PAGES = (BLOCK + PAGE - 1) / PAGE, TEXT = 64 };

static const tcpcore_addr A = {{10, 0, 0, 1}}, B = {{10, 0, 0, 2}};
static tcpcore_end a = TCPCORE_END_INIT, b = TCPCORE_END_INIT;
static unsigned char text[TEXT];

static void *make(tcpcore_end *end, tcpcore_addr addr)
{
    tcpcore_config config = {.addr = addr, .port = 1, .mss = 1460, .isn = 1, .send_capacity = CAPACITY, .recv_capacity = CAPACITY,
                             .limit = TCPCORE_LIMIT};
    void *block = mmap(NULL, (size_t)PAGES * PAGE, PROT_READ | PROT_WRITE, MAP_PRIVATE | MAP_ANONYMOUS, -1, 0);
    if (block == MAP_FAILED || tcpcore_new(end, &config, block, BLOCK) != TCPCORE_DONE)
        exit(1);
    return block;
}

static void carry(tcpcore_end *from, tcpcore_addr src, tcpcore_end *to)
{
    unsigned char segment[TCPCORE_EMIT_ROOM];
    tcpcore_addr dst;
    size_t length;
    while (tcpcore_emit(from, segment, sizeof segment, &dst, &length) == TCPCORE_DONE)
        tcpcore_arrive(to, src, dst, segment, length);
}

/* One side sends, the other reads. */
static size_t move(tcpcore_end *from, tcpcore_addr src, tcpcore_end *to)
{
    size_t count = 0;
    tcpcore_send(from, text, TEXT, &count);
    carry(from, src, to);
    tcpcore_receive(to, text, TEXT, &count);
    return count;
}

static void report(void *block)
{
    unsigned char pages[PAGES];
    int count = 0;
    if (mincore(block, (size_t)PAGES * PAGE, pages) != 0)
        exit(1);
    for (int i = 0; i < PAGES; i++)
        count += pages[i] & 1;
    printf(" %d", count * PAGE);
}

int main(int number, char **words)
{
    unsigned long echoes = number == 2 ? strtoul(words[1], NULL, 10) : 0, moved = 0;
    void *block = make(&a, A);
    make(&b, B);
    tcpcore_listen(&b);
    tcpcore_connect(&a, B, 1);
    carry(&a, A, &b);
    carry(&b, B, &a);
    carry(&a, A, &b);
    report(block);
    for (unsigned long k = 0; k < echoes; k++) {
        moved += move(&a, A, &b) + move(&b, B, &a);
        if (k == 0 || k + 1 == echoes)
            report(block);
    }
    printf("\n");
    return moved == 2 * TEXT * echoes ? 0 : 1;
}
