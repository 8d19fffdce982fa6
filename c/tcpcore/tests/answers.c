/* The test of the answers: each has its number and its text, and no other number has one. */
#include "tcpcore.h"

#include <stdio.h>
#include <string.h>

#define ANSWER(name) {TCPCORE_##name, #name}

static const struct {
    uint32_t number;
    const char *name;
} ANSWERS[] = {
    ANSWER(DONE),         ANSWER(TOO_SHORT),   ANSWER(TOO_LONG),      ANSWER(BAD_CHECKSUM),  ANSWER(BAD_OFFSET),
    ANSWER(BAD_OPTION),   ANSWER(BAD_PADDING), ANSWER(NOT_OPEN),      ANSWER(ALREADY_OPEN),  ANSWER(CLOSING),
    ANSWER(ENDED),        ANSWER(STREAM_FULL), ANSWER(NOT_CONNECTED), ANSWER(BAD_CAPACITY),  ANSWER(NO_MEMORY),
    ANSWER(BAD_MSS),      ANSWER(BAD_SHIFT),   ANSWER(BAD_LIMIT),     ANSWER(BAD_ADDR),      ANSWER(BAD_PORT),
    ANSWER(BAD_RUNS),     ANSWER(BAD_RULES),   ANSWER(NO_END),        ANSWER(IN_USE),
    ANSWER(ROOM),         ANSWER(NO_TIMER),    ANSWER(NULL),          ANSWER(LENGTH),        ANSWER(COPIED),
    ANSWER(OVERLAP),      ANSWER(NO_TIME_WAIT),     ANSWER(NOTHING),       ANSWER(END_OF_STREAM), ANSWER(NOT_DUE),
    ANSWER(NO_RULE),      ANSWER(DROPPED),     ANSWER(NOT_MINE),      ANSWER(NOT_TIME_WAIT),
    ANSWER(EMIT_FIRST),   ANSWER(WITHHELD),    ANSWER(TAKEN),         ANSWER(GONE),          ANSWER(BACKLOG_FULL),
    ANSWER(NOBODY)};

static int is_known(uint32_t number)
{
    return strcmp(tcpcore_strerror(number), "unknown answer") != 0;
}

int main(void)
{
    size_t count = sizeof ANSWERS / sizeof *ANSWERS, known = 0;
    for (size_t i = 0; i < count; i++)
        printf("%u %s: %s\n", ANSWERS[i].number, ANSWERS[i].name, tcpcore_strerror(ANSWERS[i].number));
    for (uint32_t number = 0; number < 1000; number++)
        known += (size_t)is_known(number);
    for (uint32_t number = UINT32_MAX; number >= 1000; number /= 2)
        known += (size_t)is_known(number);
    printf("%zu answers, version %u\n", known, tcpcore_version());
    return tcpcore_version() == TCPCORE_VERSION ? 0 : 1;
}
