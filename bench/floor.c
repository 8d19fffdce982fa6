/*
 * floor MODE BURSTS: what the moving of so many bursts of two segments of 1,460 bytes costs at least, with nothing else done. In mode
 * `floor` each text is copied four times (into a queue, into a segment, into a buffer, to the user) and summed twice (where it leaves
 * and where it arrives); in mode `once` it is copied once.
 */
#include <stdint.h>
#include <stdio.h>
#include <stdlib.h>
#include <string.h>

enum { SEGMENT = 1460, PLACES = 44, ROOM = PLACES * SEGMENT };

static unsigned char text[2 * SEGMENT], queue[ROOM], segment[SEGMENT], buffer[ROOM], read_bytes[2 * SEGMENT];

/* The sum of 32-bit words, in lanes as the compiler makes them (RFC 1071, 2 B and C). */
static uint64_t sum_of(const unsigned char *bytes)
{
    uint64_t sum = 0;
    for (size_t at = 0; at < SEGMENT; at += sizeof(uint32_t)) {
        uint32_t word;
        __builtin_memcpy(&word, bytes + at, sizeof word);
        sum += word;
    }
    return sum;
}

int main(int count, char **words)
{
    if (count != 3)
        return 2;
    int is_floor = strcmp(words[1], "floor") == 0;
    unsigned long bursts = strtoul(words[2], NULL, 10);
    void *(*volatile copy)(void *, const void *, size_t) = memcpy;
    uint64_t sum = 0;
    memset(text, 'a', sizeof text);
    for (unsigned long k = 0; k < 2 * bursts; k++) {
        size_t at = k % PLACES * SEGMENT, half = k % 2 * SEGMENT;
        copy(queue + at, text + half, SEGMENT);
        if (!is_floor)
            continue;
        copy(segment, queue + at, SEGMENT);
        sum += sum_of(segment);
        sum += sum_of(segment);
        copy(buffer + at, segment, SEGMENT);
        copy(read_bytes + half, buffer + at, SEGMENT);
    }
    printf("%lu bytes were copied, the sum of all is %llu\n", 2 * bursts * SEGMENT, (unsigned long long)sum);
    return 0;
}
