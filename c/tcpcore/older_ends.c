/*
 * Of the shared library alone: ends for programs that were built with an older version. Since version 14 a run takes 24 bytes of a block
 * where it took 16, so that a block of TCPCORE_MEMORY_RUNS or TCPCORE_CONNECTION_MEMORY_RUNS, as those versions' header says, is too small
 * for as many runs. An end that doesn't fit keeps as many as fit into what its tables took, about two thirds. Where a program asked for one
 * or two, none fits, and the answer is TCPCORE_NO_MEMORY. A block of as many bytes as tcpcore_room tells takes all. Configs of version 10 and
 * before have padding where `runs` is, which may hold anything: an end had 16 then, and has 11. Programs that are built now call what
 * tcpcore.map has in the node of version 14.
 *
 * Since version 16 a connection has a congestion window, which takes 160 bytes whether one is chosen or not: a connection of an older version
 * that doesn't fit keeps fewer runs, and one for which as few were asked doesn't fit at all. Since version 17 it has a policy, which takes POLICY
 * bytes more in the same way, since version 18 RECOVERY bytes, by which it knows the memory of its recovery, and since version 21 ASKING bytes
 * for its keep-alives and its pacing. Programs that are built now call what is in the node of version 21.
 */
#include "tcpcore.h"

/* What an end takes beside its buffers and tables, with the bytes for a block of any alignment. */
enum { BESIDE = 416 + 15 };

/* What a connection's congestion window takes, what its policy does, what it has of its recovery, and its keep-alives and its pacing. */
enum { WINDOW = 160, POLICY = 208, RECOVERY = 48, ASKING = 80 };

/* What the tables of such an end take, and what they took in version 10, and up to version 13 with so many runs. */
#define TABLES(runs) (TCPCORE_MEMORY_RUNS(0, 0, runs) - BESIDE)
#define TABLES_OF_10 ((size_t)704 + 15 - BESIDE)
#define TABLES_OF_11(runs) (2 * TCPCORE_UNITS(8 * (size_t)(runs)))

/* How many runs fit into tables of so many bytes. */
static uint16_t fitting(size_t tables)
{
    size_t runs = tables / 24;
    while (runs > 0 && TABLES(runs) > tables)
        runs--;
    return (uint16_t)runs;
}

/* The config of a program of version 10, as it was meant; NULL of NULL. */
static const tcpcore_config *of_10(const tcpcore_config *config, tcpcore_config *found)
{
    if (!config)
        return NULL;
    *found = *config;
    found->runs = fitting(TABLES_OF_10);
    return found;
}

/* A config whose end didn't fit with all its runs, where its tables may take so many bytes, and so many of them are another's now: with
   those that fit, or as it is where none does. */
static const tcpcore_config *with_fewer(const tcpcore_config *config, size_t tables, size_t less, tcpcore_config *found)
{
    uint16_t fit = tables > less ? fitting(tables - less) : 0;
    *found = *config;
    if (fit > 0)
        found->runs = fit;
    return found;
}

/* As many as the config asks for. */
static uint16_t runs_of(const tcpcore_config *config)
{
    return config->runs == 0 ? TCPCORE_RUNS : config->runs;
}

/* The config of a program of the versions 11 to 13, for an end and for a connection; and for a connection of the versions 14 and 15, 16, 17,
   and 18 to 20. */
static const tcpcore_config *of_11(const tcpcore_config *config, tcpcore_config *found)
{
    return with_fewer(config, TABLES_OF_11(runs_of(config)), 0, found);
}

static const tcpcore_config *connection_of_11(const tcpcore_config *config, tcpcore_config *found)
{
    return with_fewer(config, TABLES_OF_11(runs_of(config)), WINDOW + POLICY + RECOVERY + ASKING, found);
}

static const tcpcore_config *connection_of_14(const tcpcore_config *config, tcpcore_config *found)
{
    return with_fewer(config, TABLES(runs_of(config)), WINDOW + POLICY + RECOVERY + ASKING, found);
}

static const tcpcore_config *connection_of_16(const tcpcore_config *config, tcpcore_config *found)
{
    return with_fewer(config, TABLES(runs_of(config)), POLICY + RECOVERY + ASKING, found);
}

static const tcpcore_config *connection_of_17(const tcpcore_config *config, tcpcore_config *found)
{
    return with_fewer(config, TABLES(runs_of(config)), RECOVERY + ASKING, found);
}

static const tcpcore_config *connection_of_18(const tcpcore_config *config, tcpcore_config *found)
{
    return with_fewer(config, TABLES(runs_of(config)), ASKING, found);
}

uint32_t new_of_10(tcpcore_end *end, const tcpcore_config *config, void *block, size_t length);
uint32_t new_at_of_10(tcpcore_end **end, const tcpcore_config *config, void *block, size_t length);
size_t room_of_10(const tcpcore_config *config);
uint32_t new_of_11(tcpcore_end *end, const tcpcore_config *config, void *block, size_t length);
uint32_t new_at_of_11(tcpcore_end **end, const tcpcore_config *config, void *block, size_t length);
uint32_t connect_of_11(tcpcore_connection *connection, const tcpcore_config *config, const struct tcpcore_connection_rules *rules,
                       tcpcore_addr addr, uint16_t port, uint64_t now, void *block, size_t length);
uint32_t listen_of_11(tcpcore_connection *connection, const tcpcore_config *config, const struct tcpcore_connection_rules *rules,
                      uint64_t now, void *block, size_t length);
uint32_t connect_of_14(tcpcore_connection *connection, const tcpcore_config *config, const struct tcpcore_connection_rules *rules,
                       tcpcore_addr addr, uint16_t port, uint64_t now, void *block, size_t length);
uint32_t listen_of_14(tcpcore_connection *connection, const tcpcore_config *config, const struct tcpcore_connection_rules *rules,
                      uint64_t now, void *block, size_t length);
uint32_t connect_of_16(tcpcore_connection *connection, const tcpcore_config *config, const struct tcpcore_connection_rules *rules,
                       tcpcore_addr addr, uint16_t port, uint64_t now, void *block, size_t length);
uint32_t listen_of_16(tcpcore_connection *connection, const tcpcore_config *config, const struct tcpcore_connection_rules *rules,
                      uint64_t now, void *block, size_t length);
uint32_t connect_of_17(tcpcore_connection *connection, const tcpcore_config *config, const struct tcpcore_connection_rules *rules,
                       tcpcore_addr addr, uint16_t port, uint64_t now, void *block, size_t length);
uint32_t listen_of_17(tcpcore_connection *connection, const tcpcore_config *config, const struct tcpcore_connection_rules *rules,
                      uint64_t now, void *block, size_t length);
uint32_t connect_of_18(tcpcore_connection *connection, const tcpcore_config *config, const struct tcpcore_connection_rules *rules,
                       tcpcore_addr addr, uint16_t port, uint64_t now, void *block, size_t length);
uint32_t listen_of_18(tcpcore_connection *connection, const tcpcore_config *config, const struct tcpcore_connection_rules *rules,
                      uint64_t now, void *block, size_t length);

__asm__(".symver new_of_10, tcpcore_new@TCPCORE_4");
uint32_t new_of_10(tcpcore_end *end, const tcpcore_config *config, void *block, size_t length)
{
    tcpcore_config found;
    return tcpcore_new(end, of_10(config, &found), block, length);
}

__asm__(".symver new_at_of_10, tcpcore_new_at@TCPCORE_6");
uint32_t new_at_of_10(tcpcore_end **end, const tcpcore_config *config, void *block, size_t length)
{
    tcpcore_config found;
    return tcpcore_new_at(end, of_10(config, &found), block, length);
}

__asm__(".symver room_of_10, tcpcore_room@TCPCORE_4");
size_t room_of_10(const tcpcore_config *config)
{
    tcpcore_config found;
    return tcpcore_room(of_10(config, &found));
}

__asm__(".symver new_of_11, tcpcore_new@TCPCORE_11");
uint32_t new_of_11(tcpcore_end *end, const tcpcore_config *config, void *block, size_t length)
{
    tcpcore_config found;
    uint32_t answer = tcpcore_new(end, config, block, length);
    return answer == TCPCORE_NO_MEMORY ? tcpcore_new(end, of_11(config, &found), block, length) : answer;
}

__asm__(".symver new_at_of_11, tcpcore_new_at@TCPCORE_11");
uint32_t new_at_of_11(tcpcore_end **end, const tcpcore_config *config, void *block, size_t length)
{
    tcpcore_config found;
    uint32_t answer = tcpcore_new_at(end, config, block, length);
    return answer == TCPCORE_NO_MEMORY ? tcpcore_new_at(end, of_11(config, &found), block, length) : answer;
}

__asm__(".symver connect_of_11, tcpcore_connection_connect@TCPCORE_11");
uint32_t connect_of_11(tcpcore_connection *connection, const tcpcore_config *config, const struct tcpcore_connection_rules *rules,
                       tcpcore_addr addr, uint16_t port, uint64_t now, void *block, size_t length)
{
    tcpcore_config found;
    uint32_t answer = tcpcore_connection_connect(connection, config, rules, addr, port, now, block, length);
    return answer == TCPCORE_NO_MEMORY ? tcpcore_connection_connect(connection, connection_of_11(config, &found), rules, addr, port, now, block, length) : answer;
}

__asm__(".symver listen_of_11, tcpcore_connection_listen@TCPCORE_11");
uint32_t listen_of_11(tcpcore_connection *connection, const tcpcore_config *config, const struct tcpcore_connection_rules *rules,
                      uint64_t now, void *block, size_t length)
{
    tcpcore_config found;
    uint32_t answer = tcpcore_connection_listen(connection, config, rules, now, block, length);
    return answer == TCPCORE_NO_MEMORY ? tcpcore_connection_listen(connection, connection_of_11(config, &found), rules, now, block, length) : answer;
}

__asm__(".symver connect_of_14, tcpcore_connection_connect@TCPCORE_14");
uint32_t connect_of_14(tcpcore_connection *connection, const tcpcore_config *config, const struct tcpcore_connection_rules *rules,
                       tcpcore_addr addr, uint16_t port, uint64_t now, void *block, size_t length)
{
    tcpcore_config found;
    uint32_t answer = tcpcore_connection_connect(connection, config, rules, addr, port, now, block, length);
    return answer == TCPCORE_NO_MEMORY ? tcpcore_connection_connect(connection, connection_of_14(config, &found), rules, addr, port, now, block, length) : answer;
}

__asm__(".symver listen_of_14, tcpcore_connection_listen@TCPCORE_14");
uint32_t listen_of_14(tcpcore_connection *connection, const tcpcore_config *config, const struct tcpcore_connection_rules *rules,
                      uint64_t now, void *block, size_t length)
{
    tcpcore_config found;
    uint32_t answer = tcpcore_connection_listen(connection, config, rules, now, block, length);
    return answer == TCPCORE_NO_MEMORY ? tcpcore_connection_listen(connection, connection_of_14(config, &found), rules, now, block, length) : answer;
}

__asm__(".symver connect_of_16, tcpcore_connection_connect@TCPCORE_16");
uint32_t connect_of_16(tcpcore_connection *connection, const tcpcore_config *config, const struct tcpcore_connection_rules *rules,
                       tcpcore_addr addr, uint16_t port, uint64_t now, void *block, size_t length)
{
    tcpcore_config found;
    uint32_t answer = tcpcore_connection_connect(connection, config, rules, addr, port, now, block, length);
    return answer == TCPCORE_NO_MEMORY ? tcpcore_connection_connect(connection, connection_of_16(config, &found), rules, addr, port, now, block, length) : answer;
}

__asm__(".symver listen_of_16, tcpcore_connection_listen@TCPCORE_16");
uint32_t listen_of_16(tcpcore_connection *connection, const tcpcore_config *config, const struct tcpcore_connection_rules *rules,
                      uint64_t now, void *block, size_t length)
{
    tcpcore_config found;
    uint32_t answer = tcpcore_connection_listen(connection, config, rules, now, block, length);
    return answer == TCPCORE_NO_MEMORY ? tcpcore_connection_listen(connection, connection_of_16(config, &found), rules, now, block, length) : answer;
}

__asm__(".symver connect_of_17, tcpcore_connection_connect@TCPCORE_17");
uint32_t connect_of_17(tcpcore_connection *connection, const tcpcore_config *config, const struct tcpcore_connection_rules *rules,
                       tcpcore_addr addr, uint16_t port, uint64_t now, void *block, size_t length)
{
    tcpcore_config found;
    uint32_t answer = tcpcore_connection_connect(connection, config, rules, addr, port, now, block, length);
    return answer == TCPCORE_NO_MEMORY ? tcpcore_connection_connect(connection, connection_of_17(config, &found), rules, addr, port, now, block, length) : answer;
}

__asm__(".symver listen_of_17, tcpcore_connection_listen@TCPCORE_17");
uint32_t listen_of_17(tcpcore_connection *connection, const tcpcore_config *config, const struct tcpcore_connection_rules *rules,
                      uint64_t now, void *block, size_t length)
{
    tcpcore_config found;
    uint32_t answer = tcpcore_connection_listen(connection, config, rules, now, block, length);
    return answer == TCPCORE_NO_MEMORY ? tcpcore_connection_listen(connection, connection_of_17(config, &found), rules, now, block, length) : answer;
}

__asm__(".symver connect_of_18, tcpcore_connection_connect@TCPCORE_18");
uint32_t connect_of_18(tcpcore_connection *connection, const tcpcore_config *config, const struct tcpcore_connection_rules *rules,
                       tcpcore_addr addr, uint16_t port, uint64_t now, void *block, size_t length)
{
    tcpcore_config found;
    uint32_t answer = tcpcore_connection_connect(connection, config, rules, addr, port, now, block, length);
    return answer == TCPCORE_NO_MEMORY ? tcpcore_connection_connect(connection, connection_of_18(config, &found), rules, addr, port, now, block, length) : answer;
}

__asm__(".symver listen_of_18, tcpcore_connection_listen@TCPCORE_18");
uint32_t listen_of_18(tcpcore_connection *connection, const tcpcore_config *config, const struct tcpcore_connection_rules *rules,
                      uint64_t now, void *block, size_t length)
{
    tcpcore_config found;
    uint32_t answer = tcpcore_connection_listen(connection, config, rules, now, block, length);
    return answer == TCPCORE_NO_MEMORY ? tcpcore_connection_listen(connection, connection_of_18(config, &found), rules, now, block, length) : answer;
}
