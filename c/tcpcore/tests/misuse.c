/* The test of misuse, of structs and configs: NULL, garbage, copied, moved, freed and doubly freed structs. */
#include "misuse.h"

static unsigned char block[TCPCORE_MEMORY(1000, 1000)];

/* An end in the block. Each row frees its end before the next one is made. */
static uint32_t make(tcpcore_end *end, const tcpcore_config *config)
{
    return tcpcore_new(end, config, block, sizeof block);
}

/* Each call but new and free answers `wanted`, tells 0, and leaves the buffers as they are. */
static void every_call(tcpcore_end *end, uint32_t wanted)
{
    unsigned char buffer[TCPCORE_EMIT_ROOM];
    memset(buffer, 0xee, sizeof buffer);
    size_t count = 7;
    uint32_t due = 7;
    tcpcore_addr to = {{7, 7, 7, 7}};
    uint32_t at_once = 7;
    uint16_t port = 7;
    struct tcpcore_status status;
    struct tcpcore_arrive_report taken;
    struct tcpcore_transmit transmit;
    memset(&status, 7, sizeof status);
    memset(&taken, 7, sizeof taken);
    memset(&transmit, 7, sizeof transmit);
    CHECK(tcpcore_connect(end, THERE, 9), wanted);
    CHECK(tcpcore_listen(end), wanted);
    CHECK(tcpcore_send(end, "abc", 3, &count), wanted);
    CHECK(count, 0);
    count = 7;
    CHECK(tcpcore_receive(end, buffer, sizeof buffer, &count), wanted);
    CHECK(count, 0);
    CHECK(tcpcore_acknowledge(end), wanted);
    CHECK(tcpcore_close(end), wanted);
    CHECK(tcpcore_abort(end), wanted);
    CHECK(tcpcore_timer(end, TCPCORE_TIMER_RETRANSMIT), wanted);
    CHECK(tcpcore_arrive(end, THERE, HERE, "short", 5), wanted);
    CHECK(tcpcore_arrive_with_at_once(end, THERE, HERE, "short", 5, &at_once), wanted);
    CHECK(at_once, 0);
    CHECK(tcpcore_arrive_with_report(end, THERE, HERE, "short", 5, &taken), wanted);
    CHECK(is_zero(&taken, sizeof taken), 1);
    CHECK(tcpcore_transmit(end, buffer, sizeof buffer, &transmit), wanted);
    CHECK(is_zero(&transmit, sizeof transmit), 1);
    memset(&transmit, 7, sizeof transmit);
    CHECK(tcpcore_next(end, &transmit), wanted);
    CHECK(is_zero(&transmit, sizeof transmit), 1);
    count = 7;
    CHECK(tcpcore_emit(end, buffer, sizeof buffer, &to, &count), wanted);
    CHECK(count, 0);
    CHECK(memcmp(&to, &NOWHERE, sizeof to), 0);
    CHECK(tcpcore_timers(end, &due), wanted);
    CHECK(due, 0);
    due = 7;
    CHECK(tcpcore_pending(end, &due), wanted);
    CHECK(due, 0);
    to = THERE;
    CHECK(tcpcore_peer(end, &to, &port), wanted);
    CHECK(memcmp(&to, &NOWHERE, sizeof to), 0);
    CHECK(port, 0);
    CHECK(tcpcore_status(end, &status), wanted);
    CHECK(is_zero(&status, sizeof status), 1);
    struct tcpcore_time_wait time_wait;
    memset(&time_wait, 7, sizeof time_wait);
    CHECK(tcpcore_time_wait(end, &time_wait), wanted);
    CHECK(is_zero(&time_wait, sizeof time_wait), 1);
    for (size_t i = 0; i < sizeof buffer; i++)
        if (buffer[i] != 0xee)
            CHECK(buffer[i], 0xee);
}

/* No end: never made. */
static void no_end(void)
{
    tcpcore_end end = TCPCORE_END_INIT;
    every_call(&end, TCPCORE_NO_END);
    CHECK(tcpcore_free(&end), TCPCORE_NO_END);
    CHECK(is_empty(&end), 1);
    every_call(NULL, TCPCORE_NULL);
    CHECK(tcpcore_free(NULL), TCPCORE_NULL);
}

static void null_pointers(void)
{
    tcpcore_end end = TCPCORE_END_INIT;
    tcpcore_config config = good_config(HERE);
    unsigned char buffer[TCPCORE_EMIT_ROOM];
    size_t count;
    tcpcore_addr to;
    CHECK(make(NULL, &config), TCPCORE_NULL);
    CHECK(make(&end, NULL), TCPCORE_NULL);
    CHECK(tcpcore_new(&end, &config, NULL, sizeof block), TCPCORE_NULL);
    CHECK(tcpcore_new(&end, &config, NULL, 0), TCPCORE_NO_MEMORY);
    CHECK(tcpcore_room(NULL), 0);
    CHECK(is_empty(&end), 1);
    CHECK(make(&end, &config), TCPCORE_DONE);
    CHECK(tcpcore_listen(&end), TCPCORE_DONE);
    count = 7;
    CHECK(tcpcore_send(&end, NULL, 3, &count), TCPCORE_NULL);
    CHECK(count, 0);
    CHECK(tcpcore_send(&end, "abc", 3, NULL), TCPCORE_NULL);
    CHECK(tcpcore_send(&end, NULL, 0, &count), TCPCORE_NOT_CONNECTED);
    CHECK(tcpcore_receive(&end, NULL, 3, &count), TCPCORE_NULL);
    CHECK(tcpcore_receive(&end, buffer, 3, NULL), TCPCORE_NULL);
    CHECK(tcpcore_receive(&end, NULL, 0, &count), TCPCORE_NOTHING);
    CHECK(tcpcore_arrive(&end, THERE, HERE, NULL, 20), TCPCORE_NULL);
    CHECK(tcpcore_arrive(&end, THERE, HERE, NULL, 0), TCPCORE_TOO_SHORT);
    CHECK(tcpcore_emit(&end, NULL, sizeof buffer, &to, &count), TCPCORE_NULL);
    count = 7;
    CHECK(tcpcore_emit(&end, buffer, sizeof buffer, NULL, &count), TCPCORE_NULL);
    CHECK(count, 0);
    CHECK(tcpcore_emit(&end, buffer, sizeof buffer, &to, NULL), TCPCORE_NULL);
    CHECK(tcpcore_timers(&end, NULL), TCPCORE_NULL);
    CHECK(tcpcore_status(&end, NULL), TCPCORE_NULL);
    CHECK(tcpcore_time_wait(&end, NULL), TCPCORE_NULL);
    uint32_t at_once = 7;
    CHECK(tcpcore_arrive_with_at_once(&end, THERE, HERE, NULL, 20, &at_once), TCPCORE_NULL);
    CHECK(at_once, 0);
    CHECK(tcpcore_arrive_with_at_once(&end, THERE, HERE, buffer, 20, NULL), TCPCORE_NULL);
    CHECK(tcpcore_arrive_with_at_once(&end, THERE, HERE, NULL, 0, &at_once), TCPCORE_TOO_SHORT);
    struct tcpcore_arrive_report taken;
    memset(&taken, 7, sizeof taken);
    CHECK(tcpcore_arrive_with_report(&end, THERE, HERE, NULL, 20, &taken), TCPCORE_NULL);
    CHECK(is_zero(&taken, sizeof taken), 1);
    CHECK(tcpcore_arrive_with_report(&end, THERE, HERE, buffer, 20, NULL), TCPCORE_NULL);
    CHECK(tcpcore_arrive_with_report(&end, THERE, HERE, NULL, 0, &taken), TCPCORE_TOO_SHORT);
    struct tcpcore_transmit transmit;
    memset(&transmit, 7, sizeof transmit);
    CHECK(tcpcore_transmit(&end, NULL, sizeof buffer, &transmit), TCPCORE_NULL);
    CHECK(is_zero(&transmit, sizeof transmit), 1);
    CHECK(tcpcore_transmit(&end, buffer, sizeof buffer, NULL), TCPCORE_NULL);
    CHECK(tcpcore_next(&end, NULL), TCPCORE_NULL);
    CHECK(tcpcore_pending(&end, NULL), TCPCORE_NULL);
    uint16_t port = 7;
    CHECK(tcpcore_peer(&end, NULL, &port), TCPCORE_NULL);
    CHECK(port, 0);
    to = THERE;
    CHECK(tcpcore_peer(&end, &to, NULL), TCPCORE_NULL);
    CHECK(memcmp(&to, &NOWHERE, sizeof to), 0);
    CHECK(tcpcore_peer(&end, &to, &port), TCPCORE_NOT_CONNECTED);
    CHECK(tcpcore_free(&end), TCPCORE_DONE);
}

/* Structs that nobody set: none of them is taken for an end, and nothing is written into them but by the library's 31. */
static void garbage(void)
{
    tcpcore_config config = good_config(HERE);
    for (unsigned int seed = 1; seed < 1000; seed++) {
        tcpcore_end end;
        uint64_t word = seed;
        for (int i = 0; i < 3; i++)
            end.opaque[i] = word = word * 6364136223846793005u + 1442695040888963407u;
        tcpcore_end before = end;
        every_call(&end, TCPCORE_COPIED);
        CHECK(make(&end, &config), TCPCORE_COPIED);
        CHECK(tcpcore_free(&end), TCPCORE_COPIED);
        CHECK(memcmp(&end, &before, sizeof end), 0);
        /* The own address by chance, and no mark. */
        end.opaque[2] = (uintptr_t)&end;
        every_call(&end, TCPCORE_NO_END);
        CHECK(tcpcore_free(&end), TCPCORE_NO_END);
    }
    tcpcore_end ones;
    memset(&ones, 0xff, sizeof ones);
    every_call(&ones, TCPCORE_COPIED);
}

/* A struct that holds an end, copied or moved: the copy is refused, and the first one still works. */
static void copies(void)
{
    tcpcore_end end = TCPCORE_END_INIT, copy;
    tcpcore_config config = good_config(HERE);
    CHECK(make(&end, &config), TCPCORE_DONE);
    copy = end;
    every_call(&copy, TCPCORE_COPIED);
    CHECK(make(&copy, &config), TCPCORE_COPIED);
    CHECK(tcpcore_free(&copy), TCPCORE_COPIED);
    copy.opaque[2] = 0;
    every_call(&copy, TCPCORE_COPIED);
    CHECK(tcpcore_listen(&end), TCPCORE_DONE);
    CHECK(tcpcore_free(&end), TCPCORE_DONE);
    /* The copy of a freed end is refused as well. */
    copy.opaque[2] = (uintptr_t)&end;
    every_call(&copy, TCPCORE_COPIED);
}

/* new twice, free twice, and an end made anew in the same struct. */
static void lifetimes(void)
{
    tcpcore_end end = TCPCORE_END_INIT;
    tcpcore_config config = good_config(HERE);
    struct tcpcore_status status;
    for (int turn = 0; turn < 3; turn++) {
        CHECK(make(&end, &config), TCPCORE_DONE);
        CHECK(tcpcore_listen(&end), TCPCORE_DONE);
        CHECK(make(&end, &config), TCPCORE_IN_USE);
        CHECK(tcpcore_status(&end, &status), TCPCORE_DONE);
        CHECK(status.phase, TCPCORE_PHASE_LISTEN);
        CHECK(tcpcore_free(&end), TCPCORE_DONE);
        CHECK(is_empty(&end), 1);
        CHECK(tcpcore_free(&end), TCPCORE_NO_END);
        every_call(&end, TCPCORE_NO_END);
    }
}

static void configs(void)
{
    tcpcore_end end = TCPCORE_END_INIT;
    tcpcore_config config = good_config(HERE);
    size_t capacities[] = {0, 1048577, SIZE_MAX};
    tcpcore_config forgotten = {.mss = 63}, no_port = {.addr = HERE}, alike = {.addr = {{0, 0, 0, 1}}, .port = 1};
    CHECK(make(&end, &forgotten), TCPCORE_BAD_ADDR);
    CHECK(make(&end, &no_port), TCPCORE_BAD_PORT);
    CHECK(make(&end, &alike), TCPCORE_BAD_CAPACITY);
    CHECK(is_empty(&end), 1);
    for (int i = 0; i < 3; i++) {
        config.send_capacity = capacities[i];
        CHECK(make(&end, &config), TCPCORE_BAD_CAPACITY);
        CHECK(tcpcore_new(&end, &config, block, 0), TCPCORE_BAD_CAPACITY);
        CHECK(tcpcore_room(&config), 0);
        config.send_capacity = 1000;
        config.recv_capacity = capacities[i];
        CHECK(make(&end, &config), TCPCORE_BAD_CAPACITY);
        CHECK(tcpcore_room(&config), 0);
        config.recv_capacity = 1000;
    }
    config.mss = 63;
    CHECK(make(&end, &config), TCPCORE_BAD_MSS);
    config.mss = 1461;
    CHECK(make(&end, &config), TCPCORE_BAD_MSS);
    config.mss = 64;
    config.window_shift = 15;
    config.scales = 200;
    CHECK(make(&end, &config), TCPCORE_BAD_SHIFT);
    CHECK(is_empty(&end), 1);
    config.scales = 0; /* the shift isn't looked at */
    config.limit = 0;
    CHECK(make(&end, &config), TCPCORE_BAD_LIMIT);
    config.limit = (UINT64_C(1) << 62) + 1;
    CHECK(make(&end, &config), TCPCORE_BAD_LIMIT);
    config.runs = TCPCORE_MAX_RUNS + 1;
    CHECK(make(&end, &config), TCPCORE_BAD_LIMIT);
    config.limit--;
    CHECK(make(&end, &config), TCPCORE_BAD_RUNS);
    CHECK(tcpcore_new(&end, &config, block, 0), TCPCORE_BAD_RUNS);
    CHECK(tcpcore_room(&config), 0);
    config.runs = UINT16_MAX;
    CHECK(make(&end, &config), TCPCORE_BAD_RUNS);
    CHECK(tcpcore_room(&config), 0);
    CHECK(is_empty(&end), 1);
    config.runs = TCPCORE_MAX_RUNS;
    CHECK(make(&end, &config), TCPCORE_NO_MEMORY);
    config.runs = 1;
    CHECK(make(&end, &config), TCPCORE_DONE);
    CHECK(tcpcore_free(&end), TCPCORE_DONE);
}

int main(void)
{
    no_end();
    null_pointers();
    garbage();
    copies();
    lifetimes();
    configs();
    printf("misuse: no call was taken in\n");
    return checks > 10000 ? 0 : 1;
}
