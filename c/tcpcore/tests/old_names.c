/* A program in the names of version 8, of calls, types and constants: it is compiled by tcpcore_old_names.h, and does what it did. */
#include "tcpcore.h"

#include "check.h"

#include <string.h>

static const tcpcore_addr A = {{10, 0, 0, 1}}, B = {{10, 0, 0, 2}};
static tcpcore_end a = TCPCORE_END_INIT, b = TCPCORE_END_INIT;
static unsigned char blocks[2][TCPCORE_MEMORY(1000, 1000)];

static void make(tcpcore_end *end, tcpcore_addr addr, uint16_t port)
{
    tcpcore_config config = TCPCORE_CONFIG_DEFAULT;
    config.addr = addr;
    config.port = port;
    config.send_capacity = config.recv_capacity = 1000;
    CHECK(tcpcore_new(end, &config, blocks[end == &b], sizeof blocks[0]), TCPCORE_DONE);
}

/* Emits what is due of one end, of which the other has this reported by tcpcore_taken, or by tcpcore_taken_vouched. */
static struct tcpcore_taken carry(tcpcore_end *from, tcpcore_addr src, tcpcore_end *to, int is_vouched)
{
    unsigned char segment[TCPCORE_EMIT_ROOM];
    struct tcpcore_taken taken;
    tcpcore_addr dst;
    size_t length;
    CHECK(tcpcore_emit(from, segment, sizeof segment, &dst, &length), TCPCORE_DONE);
    CHECK(is_vouched ? tcpcore_taken_vouched(to, src, dst, segment, length, &taken) : tcpcore_taken(to, src, dst, segment, length, &taken),
          TCPCORE_DONE);
    return taken;
}

/* The same by tcpcore_take; whether it has to be answered at once. */
static uint32_t carry_at_once(tcpcore_end *from, tcpcore_addr src, tcpcore_end *to)
{
    unsigned char segment[TCPCORE_EMIT_ROOM];
    uint32_t at_once;
    tcpcore_addr dst;
    size_t length;
    CHECK(tcpcore_emit(from, segment, sizeof segment, &dst, &length), TCPCORE_DONE);
    CHECK(tcpcore_take(to, src, dst, segment, length, &at_once), TCPCORE_DONE);
    return at_once;
}

/* A closes first: it is in TIME-WAIT, and a record takes its place. */
static void rests(void)
{
    struct tcpcore_rest rest;
    unsigned char segment[TCPCORE_REST_ROOM];
    tcpcore_addr to;
    uint32_t due, phase, ending;
    size_t length;
    CHECK(tcpcore_rest(&a, &rest), TCPCORE_NOT_AT_REST);
    CHECK(tcpcore_close(&a), TCPCORE_DONE);
    CHECK(carry_at_once(&a, A, &b), 1);
    CHECK(tcpcore_close(&b), TCPCORE_DONE);
    CHECK(carry(&b, B, &a, 0).brought, TCPCORE_BROUGHT_IN_ORDER);
    CHECK(tcpcore_rest(&a, &rest), TCPCORE_DONE);
    CHECK(tcpcore_rest_pending(&rest, &due), TCPCORE_DONE);
    CHECK(due, TCPCORE_REST_ROOM);
    CHECK(tcpcore_rest_emit(&rest, segment, sizeof segment, &to, &length), TCPCORE_DONE);
    CHECK(tcpcore_arrive(&b, A, to, segment, length), TCPCORE_DONE);
    CHECK(tcpcore_rest_arrive(&rest, B, A, segment, length), TCPCORE_NOT_MINE);
    CHECK(tcpcore_rest_status(&rest, &phase, &ending), TCPCORE_DONE);
    CHECK(phase, TCPCORE_PHASE_TIME_WAIT);
    CHECK(tcpcore_rest_timer(&rest, TCPCORE_TIMER_TIME_WAIT), TCPCORE_DONE);
    CHECK(tcpcore_rest_abort(&rest), TCPCORE_ENDED);
    memset(&rest, 0, sizeof rest);
    CHECK(tcpcore_rest_pending(&rest, &due), TCPCORE_NO_REST);
}

int main(void)
{
    make(&a, A, 1);
    make(&b, B, 2);
    CHECK(tcpcore_listen(&b), TCPCORE_DONE);
    CHECK(tcpcore_connect(&a, B, 2), TCPCORE_DONE);
    CHECK(carry(&a, A, &b, 0).rule, TCPCORE_RULE_PEER_OPENS);
    CHECK(carry(&b, B, &a, 1).rule, TCPCORE_RULE_PEER_ACCEPTS);
    CHECK(carry_at_once(&a, A, &b), 0);
    rests();
    printf("old_names: %d checks\n", checks);
    return 0;
}
