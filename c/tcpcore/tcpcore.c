/*
 * The thin layer between C and the proved library: NULL, lengths, copied structs, and buffers or places over the struct, then the
 * library's own call. What that finds goes to a local first: the library relies on pointers of which no two are to the same bytes.
 */
/* The library has hosts, whatever the compiler is asked for. */
#define TCPCORE_HAS_HOSTS 1

#include "layout.h"
#include "tcpcore.h"

#include <string.h>

/*
 * A step that calls begin or end with. It is compiled into each of them, because as functions such steps take as long as some of the
 * library's own calls; but not where the compiler is told to make code small, or to make nothing quick.
 */
#if defined(__GNUC__) && defined(__OPTIMIZE__) && !defined(__OPTIMIZE_SIZE__)
#define STEP static inline __attribute__((always_inline))
#else
#define STEP static inline
#endif

/* The struct's first two words are the library's handle; the third is the struct's own address while it holds an end. */
struct handle {
    uint64_t mark;
    uint64_t at;
};

#define OWNER 2

_Static_assert(sizeof(struct handle) == OWNER * sizeof(uint64_t), "the handle is the struct's first words");
_Static_assert(sizeof(tcpcore_end) == (OWNER + 1) * sizeof(uint64_t), "the handle and the struct's own address");
_Static_assert(sizeof(tcpcore_connection) == sizeof(tcpcore_end), "a connection's struct is as an end's");
_Static_assert(sizeof(tcpcore_host) == sizeof(tcpcore_end), "and so is a host's");

/* Memory as the library takes it: it begins at a multiple of UNIT, and its size is one. */
struct block {
    void *at;
    size_t size;
};

#define UNIT 16

/* The library's own calls (crate tcp_c). Its words have 64 bits. */
_Static_assert(sizeof(size_t) == 8 && sizeof(void *) == 8, "the words of the library");
uint32_t tcp_c_new(struct handle *, const tcpcore_config *, struct block);
size_t tcp_c_room(const tcpcore_config *);
uint32_t tcp_c_free(struct handle *);
uint32_t tcp_c_connect(struct handle *, const tcpcore_addr *, uint16_t);
uint32_t tcp_c_listen(struct handle *);
uint32_t tcp_c_send(struct handle *, const uint8_t *, size_t, size_t *);
uint32_t tcp_c_receive(struct handle *, uint8_t *, size_t, size_t *);
uint32_t tcp_c_acknowledge(struct handle *);
uint32_t tcp_c_close(struct handle *);
uint32_t tcp_c_abort(struct handle *);
uint32_t tcp_c_timer(struct handle *, uint32_t);
uint32_t tcp_c_arrive(struct handle *, const tcpcore_addr *, const tcpcore_addr *, const uint8_t *, size_t);
uint32_t tcp_c_arrive_with_at_once(struct handle *, const tcpcore_addr *, const tcpcore_addr *, const uint8_t *, size_t, uint32_t *);
uint32_t tcp_c_arrive_with_report(struct handle *, const tcpcore_addr *, const tcpcore_addr *, const uint8_t *, size_t,
                                  struct tcpcore_arrive_report *);
uint32_t tcp_c_arrive_vouched(struct handle *, const tcpcore_addr *, const tcpcore_addr *, const uint8_t *, size_t);
uint32_t tcp_c_arrive_vouched_with_report(struct handle *, const tcpcore_addr *, const tcpcore_addr *, const uint8_t *, size_t,
                                          struct tcpcore_arrive_report *);
uint32_t tcp_c_arrive_by(struct handle *, const tcpcore_addr *, const tcpcore_addr *, const uint8_t *, size_t, const struct tcpcore_intake *,
                         struct tcpcore_arrive_report *);
uint32_t tcp_c_peek(struct handle *, struct lent *);
uint32_t tcp_c_consume(struct handle *, size_t, size_t *);
uint32_t tcp_c_emit(struct handle *, uint8_t *, size_t, tcpcore_addr *, size_t *);
uint32_t tcp_c_emit_partial(struct handle *, uint8_t *, size_t, tcpcore_addr *, size_t *);
uint32_t tcp_c_emit_train(struct handle *, uint8_t *, size_t, size_t, struct train *);
uint32_t tcp_c_emit_acknowledgement(struct handle *, uint8_t *, size_t, tcpcore_addr *, size_t *);
uint32_t tcp_c_resend_first(struct handle *);
uint32_t tcp_c_resend(struct handle *, uint64_t, uint64_t);
uint32_t tcp_c_parts(struct handle *, uint8_t *, size_t, struct parts *);
uint32_t tcp_c_sent(struct handle *);
uint32_t tcp_c_transmit(struct handle *, uint8_t *, size_t, struct tcpcore_transmit *);
uint32_t tcp_c_next(struct handle *, struct tcpcore_transmit *);
uint32_t tcp_c_pending(struct handle *, uint32_t *);
uint32_t tcp_c_stray_reset(const tcpcore_addr *, const tcpcore_addr *, const uint8_t *, size_t, uint8_t *, size_t, size_t *);
uint32_t tcp_c_timers(struct handle *, uint32_t *);
uint32_t tcp_c_peer(struct handle *, tcpcore_addr *, uint16_t *);
uint32_t tcp_c_status(struct handle *, struct tcpcore_status *);
uint32_t tcp_c_time_wait(struct handle *, struct tcpcore_time_wait *);
uint32_t tcp_c_time_wait_arrive(struct tcpcore_time_wait *, const tcpcore_addr *, const tcpcore_addr *, const uint8_t *, size_t);
uint32_t tcp_c_time_wait_timer(struct tcpcore_time_wait *, uint32_t);
uint32_t tcp_c_time_wait_emit(struct tcpcore_time_wait *, uint8_t *, size_t, tcpcore_addr *, size_t *);
uint32_t tcp_c_time_wait_pending(const struct tcpcore_time_wait *, uint32_t *);
uint32_t tcp_c_time_wait_abort(struct tcpcore_time_wait *);
uint32_t tcp_c_time_wait_status(const struct tcpcore_time_wait *, uint32_t *, uint32_t *);
uint32_t tcp_c_connection_connect(struct handle *, struct block, const tcpcore_config *, const struct tcpcore_connection_rules *,
                                  const tcpcore_addr *, uint16_t, uint64_t);
uint32_t tcp_c_connection_listen(struct handle *, struct block, const tcpcore_config *, const struct tcpcore_connection_rules *, uint64_t);
size_t tcp_c_connection_room(const tcpcore_config *);
uint32_t tcp_c_connection_free(struct handle *);
uint32_t tcp_c_connection_poll_at(struct handle *, uint64_t *);
uint32_t tcp_c_connection_timeout(struct handle *, uint64_t, uint32_t *);
uint32_t tcp_c_connection_tick(struct handle *, uint64_t, uint32_t *, uint64_t *);
uint32_t tcp_c_connection_arrive(struct handle *, uint64_t, const tcpcore_addr *, const tcpcore_addr *, const uint8_t *, size_t,
                                 struct tcpcore_arrive_report *);
uint32_t tcp_c_connection_arrive_vouched(struct handle *, uint64_t, const tcpcore_addr *, const tcpcore_addr *, const uint8_t *, size_t,
                                         struct tcpcore_arrive_report *);
uint32_t tcp_c_connection_emit(struct handle *, uint64_t, uint64_t, uint8_t *, size_t, struct tcpcore_connection_segment *);
uint32_t tcp_c_connection_emit_train(struct handle *, uint64_t, uint64_t, uint8_t *, size_t, size_t, struct train *);
uint32_t tcp_c_connection_send(struct handle *, uint64_t, const uint8_t *, size_t, size_t *);
uint32_t tcp_c_connection_receive(struct handle *, uint64_t, uint8_t *, size_t, size_t *);
uint32_t tcp_c_connection_peek(struct handle *, struct lent *);
uint32_t tcp_c_connection_consume(struct handle *, uint64_t, size_t, size_t *);
uint32_t tcp_c_connection_acknowledge(struct handle *, uint64_t);
uint32_t tcp_c_connection_close(struct handle *, uint64_t);
uint32_t tcp_c_connection_abort(struct handle *, uint64_t);
uint32_t tcp_c_connection_status(struct handle *, struct tcpcore_status *);
uint32_t tcp_c_connection_peer(struct handle *, tcpcore_addr *, uint16_t *);
uint32_t tcp_c_connection_set_user_timeout(struct handle *, uint64_t);
uint32_t tcp_c_connection_resend_first(struct handle *, uint64_t);
uint32_t tcp_c_connection_resend(struct handle *, uint64_t, uint64_t, uint64_t);
uint32_t tcp_c_connection_set_congestion(struct handle *, uint32_t);
uint32_t tcp_c_connection_congestion(struct handle *, struct tcpcore_congestion *);
uint32_t tcp_c_connection_set_policy(struct handle *, const struct tcpcore_policy *);
uint32_t tcp_c_connection_set_recovery(struct handle *, struct block, uint64_t);
uint32_t tcp_c_connection_set_keep_alive(struct handle *, const struct tcpcore_keep_alive *, uint64_t);
uint32_t tcp_c_connection_set_pacing(struct handle *, uint32_t);

STEP struct handle *handle(tcpcore_end *end) { return (struct handle *)end->opaque; }

STEP struct handle *handle_in(tcpcore_connection *connection) { return (struct handle *)connection->opaque; }

/* For a call that changes no end: the library takes the end out of its handle and puts it back, where it was. */
STEP struct handle copy_in(const uint64_t *words)
{
    struct handle copy;
    memcpy(&copy, words, sizeof copy);
    return copy;
}

STEP struct handle copy_of(const tcpcore_end *end) { return copy_in(end->opaque); }

/* Whether the struct of these words may be used where it lies: all zero, or with its own address. The library tests the mark. */
STEP uint32_t refusal_at(const uint64_t *words)
{
    if (words[OWNER] == (uintptr_t)words)
        return TCPCORE_DONE;
    return (words[0] | words[1] | words[OWNER]) == 0 ? TCPCORE_DONE : TCPCORE_COPIED;
}

STEP uint32_t refusal(const tcpcore_end *end) { return end ? refusal_at(end->opaque) : TCPCORE_NULL; }

STEP uint32_t connection_refusal(const tcpcore_connection *connection)
{
    return connection ? refusal_at(connection->opaque) : TCPCORE_NULL;
}

/* Whether two stretches of memory have a byte in common: so where the first begins less than its size before the second, or less than that
   one's length behind. Both together are at most as long as memory. */
STEP int overlap(const void *one, size_t size, const void *other, size_t length)
{
    uintptr_t first = (uintptr_t)one, second = (uintptr_t)other;
    return size > 0 && length > 0 && first - second + (size - 1) < size + length - 1;
}

/* Where a call writes what it has found: a count, an address, the timers, a status. */
struct place {
    void *at;
    size_t size;
};

/* The struct that a call is for. */
struct object {
    const void *at;
    size_t size;
};

STEP struct object end_at(const tcpcore_end *end) { return (struct object){end, sizeof *end}; }

STEP struct object connection_at(const tcpcore_connection *connection) { return (struct object){connection, sizeof *connection}; }

STEP struct object time_wait_at(const struct tcpcore_time_wait *time_wait) { return (struct object){time_wait, sizeof *time_wait}; }

/* Whether it may be written there: not over the struct, and not over the buffer of the same call. */
STEP int is_apart(struct place place, struct object object, const void *bytes, size_t length)
{
    return !overlap(place.at, place.size, object.at, object.size) && !overlap(place.at, place.size, bytes, length);
}

/* Why a call isn't made, with a struct, a buffer beside it, and a place for what the call finds. */
STEP uint32_t refusal_beside(struct object object, const void *bytes, size_t length, struct place place)
{
    if (!object.at || !place.at || (!bytes && length > 0))
        return TCPCORE_NULL;
    if (length > PTRDIFF_MAX)
        return TCPCORE_LENGTH;
    int apart = !overlap(object.at, object.size, bytes, length) && is_apart(place, object, bytes, length);
    return apart ? TCPCORE_DONE : TCPCORE_OVERLAP;
}

/* The same with two places. */
STEP uint32_t refusal_beside_two(struct object object, const void *bytes, size_t length, struct place one, struct place other)
{
    uint32_t answer = one.at ? refusal_beside(object, bytes, length, other) : TCPCORE_NULL;
    int apart = is_apart(one, object, bytes, length) && !overlap(one.at, one.size, other.at, other.size);
    return answer != TCPCORE_DONE || apart ? answer : TCPCORE_OVERLAP;
}

/* The same with an end, which has to lie where it was made. */
STEP uint32_t refusal_with(const tcpcore_end *end, const void *bytes, size_t length, struct place place)
{
    uint32_t answer = refusal_beside(end_at(end), bytes, length, place);
    return answer != TCPCORE_DONE ? answer : refusal(end);
}

STEP uint32_t connection_refusal_with(const tcpcore_connection *connection, const void *bytes, size_t length, struct place place)
{
    uint32_t answer = refusal_beside(connection_at(connection), bytes, length, place);
    return answer != TCPCORE_DONE ? answer : connection_refusal(connection);
}

STEP uint32_t refusal_with_two(const tcpcore_end *end, const void *bytes, size_t length, struct place one, struct place other)
{
    uint32_t answer = refusal_beside_two(end_at(end), bytes, length, one, other);
    return answer != TCPCORE_DONE ? answer : refusal(end);
}

STEP uint32_t connection_refusal_with_two(const tcpcore_connection *connection, const void *bytes, size_t length, struct place one,
                                          struct place other)
{
    uint32_t answer = refusal_beside_two(connection_at(connection), bytes, length, one, other);
    return answer != TCPCORE_DONE ? answer : connection_refusal(connection);
}

/* Writes what a call would have found that was refused, but over the struct or the buffer. */
static void put_if_apart(struct place place, struct object object, const void *bytes, size_t length, const void *found)
{
    if (place.at && is_apart(place, object, bytes, length > PTRDIFF_MAX ? 0 : length))
        memcpy(place.at, found, place.size);
}

/* Writes what a call has found. One that wasn't refused has a place that is apart. */
STEP void put(uint32_t refused, struct place place, struct object object, const void *bytes, size_t length, const void *found)
{
    if (refused == TCPCORE_DONE)
        memcpy(place.at, found, place.size);
    else
        put_if_apart(place, object, bytes, length, found);
}

/* Where an empty slice, block or place lies: it is never at NULL. No byte is read or written there. */
#define NOWHERE ((void *)(uintptr_t)UNIT)

STEP uint8_t *start(void *bytes) { return bytes ? bytes : NOWHERE; }

STEP const uint8_t *front(const void *bytes) { return bytes ? bytes : NOWHERE; }

/* The whole units of the caller's block. */
STEP struct block units_of(void *bytes, size_t length)
{
    size_t before = -(uintptr_t)bytes % UNIT;
    if (length < before + UNIT)
        return (struct block){NOWHERE, 0};
    return (struct block){(uint8_t *)bytes + before, (length - before) / UNIT * UNIT};
}

/* Of a connection's block the first unit is this file's own, and what the library takes is behind it: the portable file, which sees memory
   through windows, keeps there where that of the recovery lies. */
STEP struct block behind_first_unit(struct block units)
{
    return units.size < UNIT ? units : (struct block){(uint8_t *)units.at + UNIT, units.size - UNIT};
}

/* No end has the address 0.0.0.0 or the port 0. The proved core takes them like any others: here they say that nobody filled them in. */
static uint32_t refusal_of(const tcpcore_config *config)
{
    const uint8_t *byte = config->addr.byte;
    if ((byte[0] | byte[1] | byte[2] | byte[3]) == 0)
        return TCPCORE_BAD_ADDR;
    return config->port == 0 ? TCPCORE_BAD_PORT : TCPCORE_DONE;
}

uint32_t tcpcore_new(tcpcore_end *end, const tcpcore_config *config, void *block, size_t length)
{
    uint32_t answer = config ? refusal_with(end, block, length, (struct place){NOWHERE, 0}) : TCPCORE_NULL;
    if (answer == TCPCORE_DONE && end->opaque[OWNER] == 0)
        answer = refusal_of(config);
    if (answer != TCPCORE_DONE)
        return answer;
    /* The caller's may lie in the block. */
    tcpcore_config copy = *config;
    answer = tcp_c_new(handle(end), &copy, units_of(block, length));
    if (answer == TCPCORE_DONE)
        end->opaque[OWNER] = (uintptr_t)end;
    return answer;
}

/* The struct takes whole units at the front of the block, so that what the library takes behind it begins at one. */
_Static_assert(TCPCORE_STRUCT_ROOM % UNIT == 0 && TCPCORE_STRUCT_ROOM >= sizeof(tcpcore_end), "the struct's room");

uint32_t tcpcore_new_at(tcpcore_end **end, const tcpcore_config *config, void *block, size_t length)
{
    /* The config may lie in the block. */
    struct object from = {config, 0};
    tcpcore_end *made = NULL;
    struct place place = {end, sizeof(void *)};
    uint32_t refused = refusal_beside(from, block, length, place), answer = refused;
    if (refused == TCPCORE_DONE) {
        struct block units = units_of(block, length);
        tcpcore_end empty = TCPCORE_END_INIT, *at = units.size < TCPCORE_STRUCT_ROOM ? &empty : units.at;
        size_t room = at == &empty ? units.size : TCPCORE_STRUCT_ROOM;
        tcpcore_config copy = *config;
        *at = empty;
        answer = tcpcore_new(at, &copy, (uint8_t *)units.at + room, units.size - room);
        made = answer == TCPCORE_DONE ? at : NULL;
    }
    put(refused, place, from, block, length, &made);
    return answer;
}

size_t tcpcore_room(const tcpcore_config *config)
{
    size_t room = config ? tcp_c_room(config) : 0;
    return room > 0 ? room + UNIT - 1 : 0;
}

uint32_t tcpcore_free(tcpcore_end *end)
{
    uint32_t answer = refusal(end);
    if (answer != TCPCORE_DONE)
        return answer;
    answer = tcp_c_free(handle(end));
    if (answer == TCPCORE_DONE)
        memset(end, 0, sizeof *end);
    return answer;
}

uint32_t tcpcore_connect(tcpcore_end *end, tcpcore_addr addr, uint16_t port)
{
    uint32_t answer = refusal(end);
    return answer != TCPCORE_DONE ? answer : tcp_c_connect(handle(end), &addr, port);
}

uint32_t tcpcore_listen(tcpcore_end *end)
{
    uint32_t answer = refusal(end);
    return answer != TCPCORE_DONE ? answer : tcp_c_listen(handle(end));
}

uint32_t tcpcore_send(tcpcore_end *end, const void *text, size_t length, size_t *taken)
{
    size_t found = 0;
    struct place place = {taken, sizeof *taken};
    uint32_t refused = refusal_with(end, text, length, place), answer = refused;
    if (refused == TCPCORE_DONE)
        answer = tcp_c_send(handle(end), front(text), length, &found);
    put(refused, place, end_at(end), text, length, &found);
    return answer;
}

uint32_t tcpcore_receive(tcpcore_end *end, void *out, size_t room, size_t *count)
{
    size_t found = 0;
    struct place place = {count, sizeof *count};
    uint32_t refused = refusal_with(end, out, room, place), answer = refused;
    if (refused == TCPCORE_DONE)
        answer = tcp_c_receive(handle(end), start(out), room, &found);
    put(refused, place, end_at(end), out, room, &found);
    return answer;
}

/* A piece where the library has lent it; no bytes lie nowhere. */
STEP tcpcore_piece piece_of(uint64_t at, uint64_t length)
{
    return (tcpcore_piece){length > 0 ? (const void *)(uintptr_t)at : NULL, (size_t)length};
}

/* What the library has lent. */
STEP struct tcpcore_lent lent_of(const struct lent *reported)
{
    struct tcpcore_lent lent = {.ends = reported->ends};
    lent.first = piece_of(reported->first, reported->first_length);
    lent.second = piece_of(reported->second, reported->second_length);
    return lent;
}

uint32_t tcpcore_peek(const tcpcore_end *end, struct tcpcore_lent *lent)
{
    struct tcpcore_lent found = {.ends = 0};
    struct place place = {lent, sizeof *lent};
    uint32_t refused = refusal_with(end, NULL, 0, place), answer = refused;
    if (refused == TCPCORE_DONE) {
        struct handle copy = copy_of(end);
        struct lent reported = {.ends = 0};
        answer = tcp_c_peek(&copy, &reported);
        found = lent_of(&reported);
    }
    put(refused, place, end_at(end), NULL, 0, &found);
    return answer;
}

uint32_t tcpcore_consume(tcpcore_end *end, size_t count, size_t *taken)
{
    size_t found = 0;
    struct place place = {taken, sizeof *taken};
    uint32_t refused = refusal_with(end, NULL, 0, place), answer = refused;
    if (refused == TCPCORE_DONE)
        answer = tcp_c_consume(handle(end), count, &found);
    put(refused, place, end_at(end), NULL, 0, &found);
    return answer;
}

uint32_t tcpcore_acknowledge(tcpcore_end *end)
{
    uint32_t answer = refusal(end);
    return answer != TCPCORE_DONE ? answer : tcp_c_acknowledge(handle(end));
}

uint32_t tcpcore_close(tcpcore_end *end)
{
    uint32_t answer = refusal(end);
    return answer != TCPCORE_DONE ? answer : tcp_c_close(handle(end));
}

uint32_t tcpcore_abort(tcpcore_end *end)
{
    uint32_t answer = refusal(end);
    return answer != TCPCORE_DONE ? answer : tcp_c_abort(handle(end));
}

uint32_t tcpcore_timer(tcpcore_end *end, uint32_t timer)
{
    uint32_t answer = refusal(end);
    return answer != TCPCORE_DONE ? answer : tcp_c_timer(handle(end), timer);
}

uint32_t tcpcore_resend_first(tcpcore_end *end)
{
    uint32_t answer = refusal(end);
    return answer != TCPCORE_DONE ? answer : tcp_c_resend_first(handle(end));
}

uint32_t tcpcore_resend(tcpcore_end *end, uint64_t from, uint64_t to)
{
    uint32_t answer = refusal(end);
    return answer != TCPCORE_DONE ? answer : tcp_c_resend(handle(end), from, to);
}

uint32_t tcpcore_arrive(tcpcore_end *end, tcpcore_addr src, tcpcore_addr dst, const void *bytes, size_t length)
{
    uint32_t answer = refusal_with(end, bytes, length, (struct place){NOWHERE, 0});
    return answer != TCPCORE_DONE ? answer : tcp_c_arrive(handle(end), &src, &dst, front(bytes), length);
}

uint32_t tcpcore_arrive_with_at_once(tcpcore_end *end, tcpcore_addr src, tcpcore_addr dst, const void *bytes, size_t length,
                                     uint32_t *at_once)
{
    uint32_t found = 0;
    struct place place = {at_once, sizeof *at_once};
    uint32_t refused = refusal_with(end, bytes, length, place), answer = refused;
    if (refused == TCPCORE_DONE)
        answer = tcp_c_arrive_with_at_once(handle(end), &src, &dst, front(bytes), length, &found);
    put(refused, place, end_at(end), bytes, length, &found);
    return answer;
}

uint32_t tcpcore_arrive_with_report(tcpcore_end *end, tcpcore_addr src, tcpcore_addr dst, const void *bytes, size_t length,
                                    struct tcpcore_arrive_report *report)
{
    struct tcpcore_arrive_report found = {0};
    struct place place = {report, sizeof *report};
    uint32_t refused = refusal_with(end, bytes, length, place), answer = refused;
    if (refused == TCPCORE_DONE)
        answer = tcp_c_arrive_with_report(handle(end), &src, &dst, front(bytes), length, &found);
    put(refused, place, end_at(end), bytes, length, &found);
    return answer;
}

uint32_t tcpcore_arrive_vouched(tcpcore_end *end, tcpcore_addr src, tcpcore_addr dst, const void *bytes, size_t length)
{
    uint32_t answer = refusal_with(end, bytes, length, (struct place){NOWHERE, 0});
    return answer != TCPCORE_DONE ? answer : tcp_c_arrive_vouched(handle(end), &src, &dst, front(bytes), length);
}

uint32_t tcpcore_arrive_vouched_with_report(tcpcore_end *end, tcpcore_addr src, tcpcore_addr dst, const void *bytes,
                                            size_t length, struct tcpcore_arrive_report *report)
{
    struct tcpcore_arrive_report found = {0};
    struct place place = {report, sizeof *report};
    uint32_t refused = refusal_with(end, bytes, length, place), answer = refused;
    if (refused == TCPCORE_DONE)
        answer = tcp_c_arrive_vouched_with_report(handle(end), &src, &dst, front(bytes), length, &found);
    put(refused, place, end_at(end), bytes, length, &found);
    return answer;
}

uint32_t tcpcore_arrive_by(tcpcore_end *end, tcpcore_addr src, tcpcore_addr dst, const void *bytes, size_t length,
                           const struct tcpcore_intake *intake, struct tcpcore_arrive_report *report)
{
    struct tcpcore_arrive_report found = {0};
    struct place place = {report, sizeof *report};
    uint32_t refused = refusal_with(end, bytes, length, place), answer = refused;
    if (refused == TCPCORE_DONE && !intake)
        answer = TCPCORE_NULL;
    else if (refused == TCPCORE_DONE) {
        struct tcpcore_intake here = *intake;
        answer = tcp_c_arrive_by(handle(end), &src, &dst, front(bytes), length, &here, &found);
    }
    put(refused, place, end_at(end), bytes, length, &found);
    return answer;
}

/* Which of the library's calls writes a segment and its length: none is called through a pointer (tests/depth.py). */
enum writer { EMIT, EMIT_PARTIAL, EMIT_ACKNOWLEDGEMENT };

STEP uint32_t written_by(enum writer writer, struct handle *end, uint8_t *out, size_t room, tcpcore_addr *to, size_t *length)
{
    if (writer == EMIT_PARTIAL)
        return tcp_c_emit_partial(end, out, room, to, length);
    if (writer == EMIT_ACKNOWLEDGEMENT)
        return tcp_c_emit_acknowledgement(end, out, room, to, length);
    return tcp_c_emit(end, out, room, to, length);
}

STEP uint32_t write_by(enum writer writer, tcpcore_end *end, void *out, size_t room, tcpcore_addr *to, size_t *length)
{
    tcpcore_addr address = {{0, 0, 0, 0}};
    size_t found = 0;
    struct place where = {to, sizeof *to}, place = {length, sizeof *length};
    uint32_t refused = refusal_with_two(end, out, room, where, place), answer = refused;
    if (refused == TCPCORE_DONE)
        answer = written_by(writer, handle(end), start(out), room, &address, &found);
    put(refused, where, end_at(end), out, room, &address);
    put(refused, place, end_at(end), out, room, &found);
    return answer;
}

uint32_t tcpcore_emit(tcpcore_end *end, void *out, size_t room, tcpcore_addr *to, size_t *length)
{
    return write_by(EMIT, end, out, room, to, length);
}

uint32_t tcpcore_emit_partial(tcpcore_end *end, void *out, size_t room, tcpcore_addr *to, size_t *length)
{
    return write_by(EMIT_PARTIAL, end, out, room, to, length);
}

uint32_t tcpcore_emit_acknowledgement(tcpcore_end *end, void *out, size_t room, tcpcore_addr *to, size_t *length)
{
    return write_by(EMIT_ACKNOWLEDGEMENT, end, out, room, to, length);
}

/* What the library reports of segments as one, with its reserved words. */
STEP struct tcpcore_train train_of(const struct train *reported)
{
    struct tcpcore_train found = {.segments = 0};
    found.whole.to = reported->to;
    found.whole.kind = reported->kind;
    found.whole.length = reported->length;
    found.whole.position = reported->position;
    found.whole.count = reported->count;
    found.header = reported->header;
    found.each = reported->each;
    found.segments = reported->segments;
    return found;
}

uint32_t tcpcore_emit_train(tcpcore_end *end, void *out, size_t room, size_t most, struct tcpcore_train *train)
{
    struct train reported = {.segments = 0};
    struct place place = {train, sizeof *train};
    uint32_t refused = refusal_with(end, out, room, place), answer = refused;
    if (refused == TCPCORE_DONE)
        answer = tcp_c_emit_train(handle(end), start(out), room, most, &reported);
    struct tcpcore_train found = train_of(&reported);
    put(refused, place, end_at(end), out, room, &found);
    return answer;
}

uint32_t tcpcore_parts(const tcpcore_end *end, void *header, size_t room, struct tcpcore_parts *parts)
{
    struct tcpcore_parts found = {.header = 0};
    struct place place = {parts, sizeof *parts};
    uint32_t refused = refusal_with(end, header, room, place), answer = refused;
    if (refused == TCPCORE_DONE) {
        struct handle copy = copy_of(end);
        struct parts reported = {.header = 0};
        answer = tcp_c_parts(&copy, start(header), room, &reported);
        found.to = reported.to;
        found.header = reported.header;
        found.first = piece_of(reported.first, reported.first_length);
        found.second = piece_of(reported.second, reported.second_length);
    }
    put(refused, place, end_at(end), header, room, &found);
    return answer;
}

uint32_t tcpcore_sent(tcpcore_end *end)
{
    uint32_t answer = refusal(end);
    return answer != TCPCORE_DONE ? answer : tcp_c_sent(handle(end));
}

uint32_t tcpcore_transmit(tcpcore_end *end, void *out, size_t room, struct tcpcore_transmit *transmit)
{
    struct tcpcore_transmit found = {0};
    struct place place = {transmit, sizeof *transmit};
    uint32_t refused = refusal_with(end, out, room, place), answer = refused;
    if (refused == TCPCORE_DONE)
        answer = tcp_c_transmit(handle(end), start(out), room, &found);
    put(refused, place, end_at(end), out, room, &found);
    return answer;
}

uint32_t tcpcore_next(const tcpcore_end *end, struct tcpcore_transmit *next)
{
    struct tcpcore_transmit found = {0};
    struct place place = {next, sizeof *next};
    uint32_t refused = refusal_with(end, NULL, 0, place), answer = refused;
    if (refused == TCPCORE_DONE) {
        struct handle copy = copy_of(end);
        answer = tcp_c_next(&copy, &found);
    }
    put(refused, place, end_at(end), NULL, 0, &found);
    return answer;
}

uint32_t tcpcore_pending(const tcpcore_end *end, uint32_t *due)
{
    uint32_t found = 0;
    struct place place = {due, sizeof *due};
    uint32_t refused = refusal_with(end, NULL, 0, place), answer = refused;
    if (refused == TCPCORE_DONE) {
        struct handle copy = copy_of(end);
        answer = tcp_c_pending(&copy, &found);
    }
    put(refused, place, end_at(end), NULL, 0, &found);
    return answer;
}

/* Whether a place is over neither of two buffers. */
STEP int is_beside(struct place place, const void *bytes, size_t length, const void *out, size_t room)
{
    return !overlap(place.at, place.size, bytes, length > PTRDIFF_MAX ? 0 : length)
           && !overlap(place.at, place.size, out, room > PTRDIFF_MAX ? 0 : room);
}

/* Why no reset is looked for: a pointer, a length, or two of the three lie over each other. */
STEP uint32_t refusal_of_stray(const void *bytes, size_t length, const void *out, size_t room, struct place place)
{
    if (!place.at || (!bytes && length > 0) || (!out && room > 0))
        return TCPCORE_NULL;
    if (length > PTRDIFF_MAX || room > PTRDIFF_MAX)
        return TCPCORE_LENGTH;
    return overlap(bytes, length, out, room) || !is_beside(place, bytes, length, out, room) ? TCPCORE_OVERLAP : TCPCORE_DONE;
}

uint32_t tcpcore_stray_reset(tcpcore_addr src, tcpcore_addr dst, const void *bytes, size_t length, void *out, size_t room,
                             size_t *written)
{
    size_t found = 0;
    struct place place = {written, sizeof *written};
    uint32_t answer = refusal_of_stray(bytes, length, out, room, place);
    if (answer == TCPCORE_DONE)
        answer = tcp_c_stray_reset(&src, &dst, front(bytes), length, start(out), room, &found);
    if (written && is_beside(place, bytes, length, out, room))
        *written = found;
    return answer;
}

uint32_t tcpcore_timers(const tcpcore_end *end, uint32_t *due)
{
    uint32_t found = 0;
    struct place place = {due, sizeof *due};
    uint32_t refused = refusal_with(end, NULL, 0, place), answer = refused;
    if (refused == TCPCORE_DONE) {
        struct handle copy = copy_of(end);
        answer = tcp_c_timers(&copy, &found);
    }
    put(refused, place, end_at(end), NULL, 0, &found);
    return answer;
}

uint32_t tcpcore_peer(const tcpcore_end *end, tcpcore_addr *addr, uint16_t *port)
{
    tcpcore_addr address = {{0, 0, 0, 0}};
    uint16_t found = 0;
    struct place where = {addr, sizeof *addr}, place = {port, sizeof *port};
    uint32_t refused = refusal_with_two(end, NULL, 0, where, place), answer = refused;
    if (refused == TCPCORE_DONE) {
        struct handle copy = copy_of(end);
        answer = tcp_c_peer(&copy, &address, &found);
    }
    put(refused, where, end_at(end), NULL, 0, &address);
    put(refused, place, end_at(end), NULL, 0, &found);
    return answer;
}

uint32_t tcpcore_status(const tcpcore_end *end, struct tcpcore_status *status)
{
    struct tcpcore_status found = {0};
    struct place place = {status, sizeof *status};
    uint32_t refused = refusal_with(end, NULL, 0, place), answer = refused;
    if (refused == TCPCORE_DONE) {
        struct handle copy = copy_of(end);
        answer = tcp_c_status(&copy, &found);
    }
    put(refused, place, end_at(end), NULL, 0, &found);
    return answer;
}

uint32_t tcpcore_time_wait(const tcpcore_end *end, struct tcpcore_time_wait *time_wait)
{
    struct tcpcore_time_wait found = {0};
    struct place place = {time_wait, sizeof *time_wait};
    uint32_t refused = refusal_with(end, NULL, 0, place), answer = refused;
    if (refused == TCPCORE_DONE) {
        struct handle copy = copy_of(end);
        answer = tcp_c_time_wait(&copy, &found);
    }
    put(refused, place, end_at(end), NULL, 0, &found);
    return answer;
}

uint32_t tcpcore_time_wait_arrive(struct tcpcore_time_wait *time_wait, tcpcore_addr src, tcpcore_addr dst, const void *bytes,
                                  size_t length)
{
    uint32_t answer = refusal_beside(time_wait_at(time_wait), bytes, length, (struct place){NOWHERE, 0});
    return answer != TCPCORE_DONE ? answer : tcp_c_time_wait_arrive(time_wait, &src, &dst, front(bytes), length);
}

uint32_t tcpcore_time_wait_timer(struct tcpcore_time_wait *time_wait, uint32_t timer)
{
    return time_wait ? tcp_c_time_wait_timer(time_wait, timer) : TCPCORE_NULL;
}

uint32_t tcpcore_time_wait_emit(struct tcpcore_time_wait *time_wait, void *out, size_t room, tcpcore_addr *to, size_t *length)
{
    tcpcore_addr address = {{0, 0, 0, 0}};
    size_t found = 0;
    struct place where = {to, sizeof *to}, place = {length, sizeof *length};
    uint32_t refused = refusal_beside_two(time_wait_at(time_wait), out, room, where, place), answer = refused;
    if (refused == TCPCORE_DONE)
        answer = tcp_c_time_wait_emit(time_wait, start(out), room, &address, &found);
    put(refused, where, time_wait_at(time_wait), out, room, &address);
    put(refused, place, time_wait_at(time_wait), out, room, &found);
    return answer;
}

uint32_t tcpcore_time_wait_pending(const struct tcpcore_time_wait *time_wait, uint32_t *due)
{
    uint32_t found = 0;
    struct place place = {due, sizeof *due};
    uint32_t refused = refusal_beside(time_wait_at(time_wait), NULL, 0, place), answer = refused;
    if (refused == TCPCORE_DONE)
        answer = tcp_c_time_wait_pending(time_wait, &found);
    put(refused, place, time_wait_at(time_wait), NULL, 0, &found);
    return answer;
}

uint32_t tcpcore_time_wait_abort(struct tcpcore_time_wait *time_wait)
{
    return time_wait ? tcp_c_time_wait_abort(time_wait) : TCPCORE_NULL;
}

uint32_t tcpcore_time_wait_status(const struct tcpcore_time_wait *time_wait, uint32_t *phase, uint32_t *ending)
{
    uint32_t found[2] = {0, 0};
    struct place one = {phase, sizeof *phase}, other = {ending, sizeof *ending};
    uint32_t refused = refusal_beside_two(time_wait_at(time_wait), NULL, 0, one, other), answer = refused;
    if (refused == TCPCORE_DONE)
        answer = tcp_c_time_wait_status(time_wait, &found[0], &found[1]);
    put(refused, one, time_wait_at(time_wait), NULL, 0, &found[0]);
    put(refused, other, time_wait_at(time_wait), NULL, 0, &found[1]);
    return answer;
}

/* Why no connection is made; the config and the rules may lie in the block. */
static uint32_t refusal_to_make(const tcpcore_connection *connection, const tcpcore_config *config,
                                const struct tcpcore_connection_rules *rules, const void *block, size_t length)
{
    if (!config || !rules)
        return TCPCORE_NULL;
    uint32_t answer = connection_refusal_with(connection, block, length, (struct place){NOWHERE, 0});
    return answer == TCPCORE_DONE && connection->opaque[OWNER] == 0 ? refusal_of(config) : answer;
}

/* One that was made is known by its address. */
STEP uint32_t made(tcpcore_connection *connection, uint32_t answer)
{
    if (answer == TCPCORE_DONE)
        connection->opaque[OWNER] = (uintptr_t)connection;
    return answer;
}

uint32_t tcpcore_connection_connect(tcpcore_connection *connection, const tcpcore_config *config,
                                    const struct tcpcore_connection_rules *rules, tcpcore_addr addr, uint16_t port, uint64_t now,
                                    void *block, size_t length)
{
    uint32_t answer = refusal_to_make(connection, config, rules, block, length);
    if (answer != TCPCORE_DONE)
        return answer;
    tcpcore_config config_here = *config;
    struct tcpcore_connection_rules rules_here = *rules;
    struct block rest = behind_first_unit(units_of(block, length));
    return made(connection, tcp_c_connection_connect(handle_in(connection), rest, &config_here, &rules_here, &addr, port, now));
}

uint32_t tcpcore_connection_listen(tcpcore_connection *connection, const tcpcore_config *config,
                                   const struct tcpcore_connection_rules *rules, uint64_t now, void *block, size_t length)
{
    uint32_t answer = refusal_to_make(connection, config, rules, block, length);
    if (answer != TCPCORE_DONE)
        return answer;
    tcpcore_config config_here = *config;
    struct tcpcore_connection_rules rules_here = *rules;
    struct block rest = behind_first_unit(units_of(block, length));
    return made(connection, tcp_c_connection_listen(handle_in(connection), rest, &config_here, &rules_here, now));
}

size_t tcpcore_connection_room(const tcpcore_config *config)
{
    size_t room = config ? tcp_c_connection_room(config) : 0;
    return room > 0 ? UNIT + room + UNIT - 1 : 0;
}

uint32_t tcpcore_connection_free(tcpcore_connection *connection)
{
    uint32_t answer = connection_refusal(connection);
    if (answer != TCPCORE_DONE)
        return answer;
    answer = tcp_c_connection_free(handle_in(connection));
    if (answer == TCPCORE_DONE)
        memset(connection, 0, sizeof *connection);
    return answer;
}

uint32_t tcpcore_connection_poll_at(const tcpcore_connection *connection, uint64_t *at)
{
    uint64_t found = 0;
    struct place place = {at, sizeof *at};
    uint32_t refused = connection_refusal_with(connection, NULL, 0, place), answer = refused;
    if (refused == TCPCORE_DONE) {
        struct handle copy = copy_in(connection->opaque);
        answer = tcp_c_connection_poll_at(&copy, &found);
    }
    put(refused, place, connection_at(connection), NULL, 0, &found);
    return answer;
}

uint32_t tcpcore_connection_timeout(tcpcore_connection *connection, uint64_t now, uint32_t *timer)
{
    uint32_t found = 0;
    struct place place = {timer, sizeof *timer};
    uint32_t refused = connection_refusal_with(connection, NULL, 0, place), answer = refused;
    if (refused == TCPCORE_DONE)
        answer = tcp_c_connection_timeout(handle_in(connection), now, &found);
    put(refused, place, connection_at(connection), NULL, 0, &found);
    return answer;
}

uint32_t tcpcore_connection_tick(tcpcore_connection *connection, uint64_t now, uint32_t *timer, uint64_t *next)
{
    uint32_t found = 0;
    uint64_t at = 0;
    struct place where = {timer, sizeof *timer}, place = {next, sizeof *next};
    uint32_t refused = connection_refusal_with_two(connection, NULL, 0, where, place), answer = refused;
    if (refused == TCPCORE_DONE)
        answer = tcp_c_connection_tick(handle_in(connection), now, &found, &at);
    put(refused, where, connection_at(connection), NULL, 0, &found);
    put(refused, place, connection_at(connection), NULL, 0, &at);
    return answer;
}

uint32_t tcpcore_connection_arrive(tcpcore_connection *connection, uint64_t now, tcpcore_addr src, tcpcore_addr dst, const void *bytes,
                                   size_t length, struct tcpcore_arrive_report *report)
{
    struct tcpcore_arrive_report found = {0};
    struct place place = {report, sizeof *report};
    uint32_t refused = connection_refusal_with(connection, bytes, length, place), answer = refused;
    if (refused == TCPCORE_DONE)
        answer = tcp_c_connection_arrive(handle_in(connection), now, &src, &dst, front(bytes), length, &found);
    put(refused, place, connection_at(connection), bytes, length, &found);
    return answer;
}

uint32_t tcpcore_connection_arrive_vouched(tcpcore_connection *connection, uint64_t now, tcpcore_addr src, tcpcore_addr dst,
                                           const void *bytes, size_t length, struct tcpcore_arrive_report *report)
{
    struct tcpcore_arrive_report found = {0};
    struct place place = {report, sizeof *report};
    uint32_t refused = connection_refusal_with(connection, bytes, length, place), answer = refused;
    if (refused == TCPCORE_DONE)
        answer = tcp_c_connection_arrive_vouched(handle_in(connection), now, &src, &dst, front(bytes), length, &found);
    put(refused, place, connection_at(connection), bytes, length, &found);
    return answer;
}

uint32_t tcpcore_connection_emit(tcpcore_connection *connection, uint64_t now, uint64_t window, void *out, size_t room,
                                 struct tcpcore_connection_segment *segment)
{
    struct tcpcore_connection_segment found = {0};
    struct place place = {segment, sizeof *segment};
    uint32_t refused = connection_refusal_with(connection, out, room, place), answer = refused;
    if (refused == TCPCORE_DONE)
        answer = tcp_c_connection_emit(handle_in(connection), now, window, start(out), room, &found);
    put(refused, place, connection_at(connection), out, room, &found);
    return answer;
}

uint32_t tcpcore_connection_emit_train(tcpcore_connection *connection, uint64_t now, uint64_t window, void *out, size_t room, size_t most,
                                       struct tcpcore_train *train)
{
    struct train reported = {.segments = 0};
    struct place place = {train, sizeof *train};
    uint32_t refused = connection_refusal_with(connection, out, room, place), answer = refused;
    if (refused == TCPCORE_DONE)
        answer = tcp_c_connection_emit_train(handle_in(connection), now, window, start(out), room, most, &reported);
    struct tcpcore_train found = train_of(&reported);
    put(refused, place, connection_at(connection), out, room, &found);
    return answer;
}

uint32_t tcpcore_connection_send(tcpcore_connection *connection, uint64_t now, const void *text, size_t length, size_t *taken)
{
    size_t found = 0;
    struct place place = {taken, sizeof *taken};
    uint32_t refused = connection_refusal_with(connection, text, length, place), answer = refused;
    if (refused == TCPCORE_DONE)
        answer = tcp_c_connection_send(handle_in(connection), now, front(text), length, &found);
    put(refused, place, connection_at(connection), text, length, &found);
    return answer;
}

uint32_t tcpcore_connection_receive(tcpcore_connection *connection, uint64_t now, void *out, size_t room, size_t *count)
{
    size_t found = 0;
    struct place place = {count, sizeof *count};
    uint32_t refused = connection_refusal_with(connection, out, room, place), answer = refused;
    if (refused == TCPCORE_DONE)
        answer = tcp_c_connection_receive(handle_in(connection), now, start(out), room, &found);
    put(refused, place, connection_at(connection), out, room, &found);
    return answer;
}

uint32_t tcpcore_connection_peek(const tcpcore_connection *connection, struct tcpcore_lent *lent)
{
    struct tcpcore_lent found = {.ends = 0};
    struct place place = {lent, sizeof *lent};
    uint32_t refused = connection_refusal_with(connection, NULL, 0, place), answer = refused;
    if (refused == TCPCORE_DONE) {
        struct handle copy = copy_in(connection->opaque);
        struct lent reported = {.ends = 0};
        answer = tcp_c_connection_peek(&copy, &reported);
        found = lent_of(&reported);
    }
    put(refused, place, connection_at(connection), NULL, 0, &found);
    return answer;
}

uint32_t tcpcore_connection_consume(tcpcore_connection *connection, uint64_t now, size_t count, size_t *taken)
{
    size_t found = 0;
    struct place place = {taken, sizeof *taken};
    uint32_t refused = connection_refusal_with(connection, NULL, 0, place), answer = refused;
    if (refused == TCPCORE_DONE)
        answer = tcp_c_connection_consume(handle_in(connection), now, count, &found);
    put(refused, place, connection_at(connection), NULL, 0, &found);
    return answer;
}

uint32_t tcpcore_connection_acknowledge(tcpcore_connection *connection, uint64_t now)
{
    uint32_t answer = connection_refusal(connection);
    return answer != TCPCORE_DONE ? answer : tcp_c_connection_acknowledge(handle_in(connection), now);
}

uint32_t tcpcore_connection_close(tcpcore_connection *connection, uint64_t now)
{
    uint32_t answer = connection_refusal(connection);
    return answer != TCPCORE_DONE ? answer : tcp_c_connection_close(handle_in(connection), now);
}

uint32_t tcpcore_connection_abort(tcpcore_connection *connection, uint64_t now)
{
    uint32_t answer = connection_refusal(connection);
    return answer != TCPCORE_DONE ? answer : tcp_c_connection_abort(handle_in(connection), now);
}

uint32_t tcpcore_connection_status(const tcpcore_connection *connection, struct tcpcore_status *status)
{
    struct tcpcore_status found = {0};
    struct place place = {status, sizeof *status};
    uint32_t refused = connection_refusal_with(connection, NULL, 0, place), answer = refused;
    if (refused == TCPCORE_DONE) {
        struct handle copy = copy_in(connection->opaque);
        answer = tcp_c_connection_status(&copy, &found);
    }
    put(refused, place, connection_at(connection), NULL, 0, &found);
    return answer;
}

uint32_t tcpcore_connection_peer(const tcpcore_connection *connection, tcpcore_addr *addr, uint16_t *port)
{
    tcpcore_addr address = {{0, 0, 0, 0}};
    uint16_t found = 0;
    struct place where = {addr, sizeof *addr}, place = {port, sizeof *port};
    uint32_t refused = connection_refusal_with_two(connection, NULL, 0, where, place), answer = refused;
    if (refused == TCPCORE_DONE) {
        struct handle copy = copy_in(connection->opaque);
        answer = tcp_c_connection_peer(&copy, &address, &found);
    }
    put(refused, where, connection_at(connection), NULL, 0, &address);
    put(refused, place, connection_at(connection), NULL, 0, &found);
    return answer;
}

uint32_t tcpcore_connection_set_user_timeout(tcpcore_connection *connection, uint64_t limit)
{
    uint32_t answer = connection_refusal(connection);
    return answer != TCPCORE_DONE ? answer : tcp_c_connection_set_user_timeout(handle_in(connection), limit);
}

uint32_t tcpcore_connection_resend_first(tcpcore_connection *connection, uint64_t now)
{
    uint32_t answer = connection_refusal(connection);
    return answer != TCPCORE_DONE ? answer : tcp_c_connection_resend_first(handle_in(connection), now);
}

uint32_t tcpcore_connection_resend(tcpcore_connection *connection, uint64_t now, uint64_t from, uint64_t to)
{
    uint32_t answer = connection_refusal(connection);
    return answer != TCPCORE_DONE ? answer : tcp_c_connection_resend(handle_in(connection), now, from, to);
}

uint32_t tcpcore_connection_set_congestion(tcpcore_connection *connection, uint32_t congestion)
{
    uint32_t answer = connection_refusal(connection);
    return answer != TCPCORE_DONE ? answer : tcp_c_connection_set_congestion(handle_in(connection), congestion);
}

uint32_t tcpcore_connection_congestion(const tcpcore_connection *connection, struct tcpcore_congestion *congestion)
{
    struct tcpcore_congestion found = {0};
    struct place place = {congestion, sizeof *congestion};
    uint32_t refused = connection_refusal_with(connection, NULL, 0, place), answer = refused;
    if (refused == TCPCORE_DONE) {
        struct handle copy = copy_in(connection->opaque);
        answer = tcp_c_connection_congestion(&copy, &found);
    }
    put(refused, place, connection_at(connection), NULL, 0, &found);
    return answer;
}

uint32_t tcpcore_connection_set_policy(tcpcore_connection *connection, const struct tcpcore_policy *policy)
{
    uint32_t answer = policy ? connection_refusal(connection) : TCPCORE_NULL;
    if (answer != TCPCORE_DONE)
        return answer;
    struct tcpcore_policy here = *policy;
    return tcp_c_connection_set_policy(handle_in(connection), &here);
}

uint32_t tcpcore_connection_set_recovery(tcpcore_connection *connection, uint64_t now, void *block, size_t length)
{
    uint32_t answer = connection_refusal_with(connection, block, length, (struct place){NOWHERE, 0});
    return answer != TCPCORE_DONE ? answer : tcp_c_connection_set_recovery(handle_in(connection), units_of(block, length), now);
}

uint32_t tcpcore_connection_set_keep_alive(tcpcore_connection *connection, uint64_t now, const struct tcpcore_keep_alive *rules)
{
    uint32_t answer = rules ? connection_refusal(connection) : TCPCORE_NULL;
    if (answer != TCPCORE_DONE)
        return answer;
    struct tcpcore_keep_alive here = *rules;
    return tcp_c_connection_set_keep_alive(handle_in(connection), &here, now);
}

uint32_t tcpcore_connection_set_pacing(tcpcore_connection *connection, uint32_t is_paced)
{
    uint32_t answer = connection_refusal(connection);
    return answer != TCPCORE_DONE ? answer : tcp_c_connection_set_pacing(handle_in(connection), is_paced);
}

/* ---- hosts */

#ifdef TCPCORE_HAS_HOSTS
uint32_t tcp_c_host_new(struct handle *, struct block, uint64_t, uint64_t);
uint32_t tcp_c_host_free(struct handle *);
uint32_t tcp_c_host_listen(struct handle *, const tcpcore_addr *, uint16_t, size_t, struct tcpcore_host_id *);
uint32_t tcp_c_host_unlisten(struct handle *, const struct tcpcore_host_id *);
uint32_t tcp_c_host_open(struct handle *, struct handle *, struct tcpcore_host_id *);
uint32_t tcp_c_host_admit(struct handle *, const struct tcpcore_host_id *, struct handle *, const tcpcore_addr *, const tcpcore_addr *,
                          const uint8_t *, size_t, struct tcpcore_host_id *);
uint32_t tcp_c_host_accept(struct handle *, const struct tcpcore_host_id *, struct tcpcore_host_id *);
uint32_t tcp_c_host_retire(struct handle *, const struct tcpcore_host_id *, struct handle *);
uint32_t tcp_c_host_remove(struct handle *, const struct tcpcore_host_id *, struct handle *);
uint32_t tcp_c_host_arrive(struct handle *, uint64_t, const tcpcore_addr *, const tcpcore_addr *, const uint8_t *, size_t,
                           struct tcpcore_host_arrived *, struct tcpcore_arrive_report *);
uint32_t tcp_c_host_arrive_vouched(struct handle *, uint64_t, const tcpcore_addr *, const tcpcore_addr *, const uint8_t *, size_t,
                                   struct tcpcore_host_arrived *, struct tcpcore_arrive_report *);
uint32_t tcp_c_host_stray(struct handle *, uint64_t, const tcpcore_addr *, const tcpcore_addr *, const uint8_t *, size_t, uint8_t *, size_t,
                          size_t *);
uint32_t tcp_c_host_emit(struct handle *, uint64_t, uint64_t, uint8_t *, size_t, struct tcpcore_host_sent *);
uint32_t tcp_c_host_emit_by_id(struct handle *, uint64_t, const struct tcpcore_host_id *, uint64_t, uint8_t *, size_t,
                               struct tcpcore_connection_segment *);
uint32_t tcp_c_host_emit_train(struct handle *, uint64_t, const struct tcpcore_host_id *, uint64_t, uint8_t *, size_t, size_t,
                               struct train *);
uint32_t tcp_c_host_timeout(struct handle *, uint64_t, struct tcpcore_host_told *);
uint32_t tcp_c_host_poll_at(struct handle *, uint64_t *);
uint32_t tcp_c_host_find(struct handle *, const tcpcore_addr *, uint16_t, const tcpcore_addr *, uint16_t, struct tcpcore_host_id *);
uint32_t tcp_c_host_send(struct handle *, uint64_t, const struct tcpcore_host_id *, const uint8_t *, size_t, size_t *);
uint32_t tcp_c_host_receive(struct handle *, uint64_t, const struct tcpcore_host_id *, uint8_t *, size_t, size_t *);
uint32_t tcp_c_host_peek(struct handle *, const struct tcpcore_host_id *, struct lent *);
uint32_t tcp_c_host_consume(struct handle *, uint64_t, const struct tcpcore_host_id *, size_t, size_t *);
uint32_t tcp_c_host_acknowledge(struct handle *, uint64_t, const struct tcpcore_host_id *);
uint32_t tcp_c_host_close(struct handle *, uint64_t, const struct tcpcore_host_id *);
uint32_t tcp_c_host_abort(struct handle *, uint64_t, const struct tcpcore_host_id *);
uint32_t tcp_c_host_status(struct handle *, const struct tcpcore_host_id *, struct tcpcore_status *);
uint32_t tcp_c_host_peer(struct handle *, const struct tcpcore_host_id *, tcpcore_addr *, uint16_t *);
uint32_t tcp_c_host_set_policy(struct handle *, const struct tcpcore_host_id *, const struct tcpcore_policy *);
uint32_t tcp_c_host_set_user_timeout(struct handle *, const struct tcpcore_host_id *, uint64_t);
uint32_t tcp_c_host_set_keep_alive(struct handle *, uint64_t, const struct tcpcore_host_id *, const struct tcpcore_keep_alive *);
uint32_t tcp_c_host_set_pacing(struct handle *, const struct tcpcore_host_id *, uint32_t);
uint32_t tcp_c_host_resend_first(struct handle *, uint64_t, const struct tcpcore_host_id *);
uint32_t tcp_c_host_resend(struct handle *, uint64_t, const struct tcpcore_host_id *, uint64_t, uint64_t);

STEP struct handle *handle_of(tcpcore_host *host) { return (struct handle *)host->opaque; }

STEP uint32_t host_refusal(const tcpcore_host *host) { return host ? refusal_at(host->opaque) : TCPCORE_NULL; }

STEP struct object host_at(const tcpcore_host *host) { return (struct object){host, sizeof *host}; }

STEP uint32_t host_refusal_with(const tcpcore_host *host, const void *bytes, size_t length, struct place place)
{
    uint32_t answer = refusal_beside(host_at(host), bytes, length, place);
    return answer != TCPCORE_DONE ? answer : host_refusal(host);
}

STEP uint32_t host_refusal_with_two(const tcpcore_host *host, const void *bytes, size_t length, struct place one, struct place other)
{
    uint32_t answer = refusal_beside_two(host_at(host), bytes, length, one, other);
    return answer != TCPCORE_DONE ? answer : host_refusal(host);
}

uint32_t tcpcore_host_new(tcpcore_host *host, uint64_t time_wait, uint64_t stray_interval, void *block, size_t length)
{
    uint32_t answer = host_refusal_with(host, block, length, (struct place){NOWHERE, 0});
    if (answer != TCPCORE_DONE)
        return answer;
    answer = tcp_c_host_new(handle_of(host), units_of(block, length), time_wait, stray_interval);
    if (answer == TCPCORE_DONE)
        host->opaque[OWNER] = (uintptr_t)host;
    return answer;
}

uint32_t tcpcore_host_free(tcpcore_host *host)
{
    uint32_t answer = host_refusal(host);
    if (answer != TCPCORE_DONE)
        return answer;
    answer = tcp_c_host_free(handle_of(host));
    if (answer == TCPCORE_DONE)
        memset(host, 0, sizeof *host);
    return answer;
}

uint32_t tcpcore_host_listen(tcpcore_host *host, tcpcore_addr addr, uint16_t port, size_t backlog, struct tcpcore_host_id *listener)
{
    struct tcpcore_host_id found = {0, 0};
    struct place place = {listener, sizeof *listener};
    tcpcore_config config = {.addr = addr, .port = port};
    uint32_t refused = host_refusal_with(host, NULL, 0, place), answer = refused;
    if (refused == TCPCORE_DONE)
        answer = refusal_of(&config);
    if (answer == TCPCORE_DONE)
        answer = tcp_c_host_listen(handle_of(host), &addr, port, backlog, &found);
    put(refused, place, host_at(host), NULL, 0, &found);
    return answer;
}

/* A call that is told a name alone, which may lie anywhere. */
STEP uint32_t host_refusal_by(const tcpcore_host *host, const struct tcpcore_host_id *id) { return id ? host_refusal(host) : TCPCORE_NULL; }

uint32_t tcpcore_host_unlisten(tcpcore_host *host, const struct tcpcore_host_id *listener)
{
    uint32_t answer = host_refusal_by(host, listener);
    if (answer != TCPCORE_DONE)
        return answer;
    struct tcpcore_host_id here = *listener;
    return tcp_c_host_unlisten(handle_of(host), &here);
}

/* A connection moves into a host, or out of it: its struct is another one, and lies where it was made. */
STEP uint32_t refusal_to_move(const tcpcore_host *host, const tcpcore_connection *connection, struct place place)
{
    uint32_t answer = connection ? host_refusal_with(host, connection, sizeof *connection, place) : TCPCORE_NULL;
    return answer != TCPCORE_DONE ? answer : connection_refusal(connection);
}

/* A connection that has moved in leaves an empty struct. */
STEP uint32_t moved_in(tcpcore_connection *connection, uint32_t answer)
{
    if (answer == TCPCORE_DONE)
        memset(connection, 0, sizeof *connection);
    return answer;
}

uint32_t tcpcore_host_open(tcpcore_host *host, tcpcore_connection *connection, struct tcpcore_host_id *id)
{
    struct tcpcore_host_id found = {0, 0};
    struct place place = {id, sizeof *id};
    uint32_t refused = refusal_to_move(host, connection, place), answer = refused;
    if (refused == TCPCORE_DONE)
        answer = moved_in(connection, tcp_c_host_open(handle_of(host), handle_in(connection), &found));
    put(refused, place, host_at(host), connection, sizeof *connection, &found);
    return answer;
}

uint32_t tcpcore_host_admit(tcpcore_host *host, const struct tcpcore_host_id *listener, tcpcore_connection *connection, tcpcore_addr src,
                            tcpcore_addr dst, const void *bytes, size_t length, struct tcpcore_host_id *id)
{
    struct tcpcore_host_id found = {0, 0};
    struct place place = {id, sizeof *id};
    uint32_t refused = listener ? host_refusal_with(host, bytes, length, place) : TCPCORE_NULL;
    if (refused == TCPCORE_DONE)
        refused = refusal_to_move(host, connection, place);
    if (refused == TCPCORE_DONE && overlap(connection, sizeof *connection, bytes, length))
        refused = TCPCORE_OVERLAP;
    uint32_t answer = refused;
    if (refused == TCPCORE_DONE) {
        struct tcpcore_host_id here = *listener;
        answer = tcp_c_host_admit(handle_of(host), &here, handle_in(connection), &src, &dst, front(bytes), length, &found);
        answer = moved_in(connection, answer);
    }
    if (!overlap(place.at, place.size, connection, sizeof *connection))
        put(refused, place, host_at(host), bytes, length, &found);
    return answer;
}

uint32_t tcpcore_host_accept(tcpcore_host *host, const struct tcpcore_host_id *listener, struct tcpcore_host_id *id)
{
    struct tcpcore_host_id found = {0, 0};
    struct place place = {id, sizeof *id};
    uint32_t refused = listener ? host_refusal_with(host, NULL, 0, place) : TCPCORE_NULL, answer = refused;
    if (refused == TCPCORE_DONE) {
        struct tcpcore_host_id here = *listener;
        answer = tcp_c_host_accept(handle_of(host), &here, &found);
    }
    put(refused, place, host_at(host), NULL, 0, &found);
    return answer;
}

uint32_t tcpcore_host_retire(tcpcore_host *host, const struct tcpcore_host_id *id, tcpcore_connection *connection)
{
    uint32_t answer = id ? refusal_to_move(host, connection, (struct place){NOWHERE, 0}) : TCPCORE_NULL;
    if (answer != TCPCORE_DONE)
        return answer;
    struct tcpcore_host_id here = *id;
    return made(connection, tcp_c_host_retire(handle_of(host), &here, handle_in(connection)));
}

uint32_t tcpcore_host_remove(tcpcore_host *host, const struct tcpcore_host_id *id, tcpcore_connection *connection)
{
    uint32_t answer = id ? refusal_to_move(host, connection, (struct place){NOWHERE, 0}) : TCPCORE_NULL;
    if (answer != TCPCORE_DONE)
        return answer;
    struct tcpcore_host_id here = *id;
    return made(connection, tcp_c_host_remove(handle_of(host), &here, handle_in(connection)));
}

uint32_t tcpcore_host_arrive(tcpcore_host *host, uint64_t now, tcpcore_addr src, tcpcore_addr dst, const void *bytes, size_t length,
                             struct tcpcore_host_arrived *arrived, struct tcpcore_arrive_report *report)
{
    struct tcpcore_host_arrived found = {{0, 0}, 0, {0}};
    struct tcpcore_arrive_report told = {0};
    struct place where = {arrived, sizeof *arrived}, place = {report, sizeof *report};
    uint32_t refused = host_refusal_with_two(host, bytes, length, where, place), answer = refused;
    if (refused == TCPCORE_DONE)
        answer = tcp_c_host_arrive(handle_of(host), now, &src, &dst, front(bytes), length, &found, &told);
    put(refused, where, host_at(host), bytes, length, &found);
    put(refused, place, host_at(host), bytes, length, &told);
    return answer;
}

uint32_t tcpcore_host_arrive_vouched(tcpcore_host *host, uint64_t now, tcpcore_addr src, tcpcore_addr dst, const void *bytes, size_t length,
                                     struct tcpcore_host_arrived *arrived, struct tcpcore_arrive_report *report)
{
    struct tcpcore_host_arrived found = {{0, 0}, 0, {0}};
    struct tcpcore_arrive_report told = {0};
    struct place where = {arrived, sizeof *arrived}, place = {report, sizeof *report};
    uint32_t refused = host_refusal_with_two(host, bytes, length, where, place), answer = refused;
    if (refused == TCPCORE_DONE)
        answer = tcp_c_host_arrive_vouched(handle_of(host), now, &src, &dst, front(bytes), length, &found, &told);
    put(refused, where, host_at(host), bytes, length, &found);
    put(refused, place, host_at(host), bytes, length, &told);
    return answer;
}

uint32_t tcpcore_host_stray(tcpcore_host *host, uint64_t now, tcpcore_addr src, tcpcore_addr dst, const void *bytes, size_t length,
                            void *out, size_t room, size_t *written)
{
    size_t found = 0;
    struct place place = {written, sizeof *written};
    uint32_t answer = host_refusal_with(host, out, room, place);
    if (answer == TCPCORE_DONE)
        answer = host_refusal_with(host, bytes, length, place);
    if (answer == TCPCORE_DONE)
        answer = refusal_of_stray(bytes, length, out, room, place);
    if (answer == TCPCORE_DONE)
        answer = tcp_c_host_stray(handle_of(host), now, &src, &dst, front(bytes), length, start(out), room, &found);
    if (written && is_beside(place, bytes, length, out, room) && !overlap(place.at, place.size, host, sizeof *host))
        *written = found;
    return answer;
}

uint32_t tcpcore_host_emit(tcpcore_host *host, uint64_t now, uint64_t window, void *out, size_t room, struct tcpcore_host_sent *sent)
{
    struct tcpcore_host_sent found = {.length = 0};
    struct place place = {sent, sizeof *sent};
    uint32_t refused = host_refusal_with(host, out, room, place), answer = refused;
    if (refused == TCPCORE_DONE)
        answer = tcp_c_host_emit(handle_of(host), now, window, start(out), room, &found);
    put(refused, place, host_at(host), out, room, &found);
    return answer;
}

uint32_t tcpcore_host_emit_by_id(tcpcore_host *host, uint64_t now, const struct tcpcore_host_id *id, uint64_t window, void *out,
                                 size_t room, struct tcpcore_connection_segment *segment)
{
    struct tcpcore_connection_segment found = {0};
    struct place place = {segment, sizeof *segment};
    uint32_t refused = id ? host_refusal_with(host, out, room, place) : TCPCORE_NULL, answer = refused;
    if (refused == TCPCORE_DONE) {
        struct tcpcore_host_id here = *id;
        answer = tcp_c_host_emit_by_id(handle_of(host), now, &here, window, start(out), room, &found);
    }
    put(refused, place, host_at(host), out, room, &found);
    return answer;
}

uint32_t tcpcore_host_emit_train(tcpcore_host *host, uint64_t now, const struct tcpcore_host_id *id, uint64_t window, void *out,
                                 size_t room, size_t most, struct tcpcore_train *train)
{
    struct train reported = {.segments = 0};
    struct place place = {train, sizeof *train};
    uint32_t refused = id ? host_refusal_with(host, out, room, place) : TCPCORE_NULL, answer = refused;
    if (refused == TCPCORE_DONE) {
        struct tcpcore_host_id here = *id;
        answer = tcp_c_host_emit_train(handle_of(host), now, &here, window, start(out), room, most, &reported);
    }
    struct tcpcore_train found = train_of(&reported);
    put(refused, place, host_at(host), out, room, &found);
    return answer;
}

uint32_t tcpcore_host_timeout(tcpcore_host *host, uint64_t now, struct tcpcore_host_told *told)
{
    struct tcpcore_host_told found = {.timer = TCPCORE_TIMER_NONE};
    struct place place = {told, sizeof *told};
    uint32_t refused = host_refusal_with(host, NULL, 0, place), answer = refused;
    if (refused == TCPCORE_DONE)
        answer = tcp_c_host_timeout(handle_of(host), now, &found);
    put(refused, place, host_at(host), NULL, 0, &found);
    return answer;
}

uint32_t tcpcore_host_poll_at(const tcpcore_host *host, uint64_t *at)
{
    uint64_t found = 0;
    struct place place = {at, sizeof *at};
    uint32_t refused = host_refusal_with(host, NULL, 0, place), answer = refused;
    if (refused == TCPCORE_DONE) {
        struct handle copy = copy_in(host->opaque);
        answer = tcp_c_host_poll_at(&copy, &found);
    }
    put(refused, place, host_at(host), NULL, 0, &found);
    return answer;
}

uint32_t tcpcore_host_find(const tcpcore_host *host, tcpcore_addr addr, uint16_t port, tcpcore_addr peer_addr, uint16_t peer_port,
                           struct tcpcore_host_id *id)
{
    struct tcpcore_host_id found = {0, 0};
    struct place place = {id, sizeof *id};
    uint32_t refused = host_refusal_with(host, NULL, 0, place), answer = refused;
    if (refused == TCPCORE_DONE) {
        struct handle copy = copy_in(host->opaque);
        answer = tcp_c_host_find(&copy, &addr, port, &peer_addr, peer_port, &found);
    }
    put(refused, place, host_at(host), NULL, 0, &found);
    return answer;
}

uint32_t tcpcore_host_send(tcpcore_host *host, uint64_t now, const struct tcpcore_host_id *id, const void *text, size_t length,
                           size_t *taken)
{
    size_t found = 0;
    struct place place = {taken, sizeof *taken};
    uint32_t refused = id ? host_refusal_with(host, text, length, place) : TCPCORE_NULL, answer = refused;
    if (refused == TCPCORE_DONE) {
        struct tcpcore_host_id here = *id;
        answer = tcp_c_host_send(handle_of(host), now, &here, front(text), length, &found);
    }
    put(refused, place, host_at(host), text, length, &found);
    return answer;
}

uint32_t tcpcore_host_receive(tcpcore_host *host, uint64_t now, const struct tcpcore_host_id *id, void *out, size_t room, size_t *count)
{
    size_t found = 0;
    struct place place = {count, sizeof *count};
    uint32_t refused = id ? host_refusal_with(host, out, room, place) : TCPCORE_NULL, answer = refused;
    if (refused == TCPCORE_DONE) {
        struct tcpcore_host_id here = *id;
        answer = tcp_c_host_receive(handle_of(host), now, &here, start(out), room, &found);
    }
    put(refused, place, host_at(host), out, room, &found);
    return answer;
}

uint32_t tcpcore_host_peek(const tcpcore_host *host, const struct tcpcore_host_id *id, struct tcpcore_lent *lent)
{
    struct tcpcore_lent found = {.ends = 0};
    struct place place = {lent, sizeof *lent};
    uint32_t refused = id ? host_refusal_with(host, NULL, 0, place) : TCPCORE_NULL, answer = refused;
    if (refused == TCPCORE_DONE) {
        struct handle copy = copy_in(host->opaque);
        struct tcpcore_host_id here = *id;
        struct lent reported = {.ends = 0};
        answer = tcp_c_host_peek(&copy, &here, &reported);
        found = lent_of(&reported);
    }
    put(refused, place, host_at(host), NULL, 0, &found);
    return answer;
}

uint32_t tcpcore_host_consume(tcpcore_host *host, uint64_t now, const struct tcpcore_host_id *id, size_t count, size_t *taken)
{
    size_t found = 0;
    struct place place = {taken, sizeof *taken};
    uint32_t refused = id ? host_refusal_with(host, NULL, 0, place) : TCPCORE_NULL, answer = refused;
    if (refused == TCPCORE_DONE) {
        struct tcpcore_host_id here = *id;
        answer = tcp_c_host_consume(handle_of(host), now, &here, count, &found);
    }
    put(refused, place, host_at(host), NULL, 0, &found);
    return answer;
}

uint32_t tcpcore_host_acknowledge(tcpcore_host *host, uint64_t now, const struct tcpcore_host_id *id)
{
    uint32_t answer = host_refusal_by(host, id);
    if (answer != TCPCORE_DONE)
        return answer;
    struct tcpcore_host_id here = *id;
    return tcp_c_host_acknowledge(handle_of(host), now, &here);
}

uint32_t tcpcore_host_close(tcpcore_host *host, uint64_t now, const struct tcpcore_host_id *id)
{
    uint32_t answer = host_refusal_by(host, id);
    if (answer != TCPCORE_DONE)
        return answer;
    struct tcpcore_host_id here = *id;
    return tcp_c_host_close(handle_of(host), now, &here);
}

uint32_t tcpcore_host_abort(tcpcore_host *host, uint64_t now, const struct tcpcore_host_id *id)
{
    uint32_t answer = host_refusal_by(host, id);
    if (answer != TCPCORE_DONE)
        return answer;
    struct tcpcore_host_id here = *id;
    return tcp_c_host_abort(handle_of(host), now, &here);
}

uint32_t tcpcore_host_status(const tcpcore_host *host, const struct tcpcore_host_id *id, struct tcpcore_status *status)
{
    struct tcpcore_status found = {0};
    struct place place = {status, sizeof *status};
    uint32_t refused = id ? host_refusal_with(host, NULL, 0, place) : TCPCORE_NULL, answer = refused;
    if (refused == TCPCORE_DONE) {
        struct handle copy = copy_in(host->opaque);
        struct tcpcore_host_id here = *id;
        answer = tcp_c_host_status(&copy, &here, &found);
    }
    put(refused, place, host_at(host), NULL, 0, &found);
    return answer;
}

uint32_t tcpcore_host_peer(const tcpcore_host *host, const struct tcpcore_host_id *id, tcpcore_addr *addr, uint16_t *port)
{
    tcpcore_addr address = {{0, 0, 0, 0}};
    uint16_t found = 0;
    struct place where = {addr, sizeof *addr}, place = {port, sizeof *port};
    uint32_t refused = id ? host_refusal_with_two(host, NULL, 0, where, place) : TCPCORE_NULL, answer = refused;
    if (refused == TCPCORE_DONE) {
        struct handle copy = copy_in(host->opaque);
        struct tcpcore_host_id here = *id;
        answer = tcp_c_host_peer(&copy, &here, &address, &found);
    }
    put(refused, where, host_at(host), NULL, 0, &address);
    put(refused, place, host_at(host), NULL, 0, &found);
    return answer;
}

uint32_t tcpcore_host_set_policy(tcpcore_host *host, const struct tcpcore_host_id *id, const struct tcpcore_policy *policy)
{
    uint32_t answer = policy ? host_refusal_by(host, id) : TCPCORE_NULL;
    if (answer != TCPCORE_DONE)
        return answer;
    struct tcpcore_host_id here = *id;
    struct tcpcore_policy chosen = *policy;
    return tcp_c_host_set_policy(handle_of(host), &here, &chosen);
}

uint32_t tcpcore_host_set_user_timeout(tcpcore_host *host, const struct tcpcore_host_id *id, uint64_t limit)
{
    uint32_t answer = host_refusal_by(host, id);
    if (answer != TCPCORE_DONE)
        return answer;
    struct tcpcore_host_id here = *id;
    return tcp_c_host_set_user_timeout(handle_of(host), &here, limit);
}

uint32_t tcpcore_host_set_keep_alive(tcpcore_host *host, uint64_t now, const struct tcpcore_host_id *id,
                                     const struct tcpcore_keep_alive *rules)
{
    uint32_t answer = rules ? host_refusal_by(host, id) : TCPCORE_NULL;
    if (answer != TCPCORE_DONE)
        return answer;
    struct tcpcore_host_id here = *id;
    struct tcpcore_keep_alive chosen = *rules;
    return tcp_c_host_set_keep_alive(handle_of(host), now, &here, &chosen);
}

uint32_t tcpcore_host_set_pacing(tcpcore_host *host, const struct tcpcore_host_id *id, uint32_t is_paced)
{
    uint32_t answer = host_refusal_by(host, id);
    if (answer != TCPCORE_DONE)
        return answer;
    struct tcpcore_host_id here = *id;
    return tcp_c_host_set_pacing(handle_of(host), &here, is_paced);
}

uint32_t tcpcore_host_resend_first(tcpcore_host *host, uint64_t now, const struct tcpcore_host_id *id)
{
    uint32_t answer = host_refusal_by(host, id);
    if (answer != TCPCORE_DONE)
        return answer;
    struct tcpcore_host_id here = *id;
    return tcp_c_host_resend_first(handle_of(host), now, &here);
}

uint32_t tcpcore_host_resend(tcpcore_host *host, uint64_t now, const struct tcpcore_host_id *id, uint64_t from, uint64_t to)
{
    uint32_t answer = host_refusal_by(host, id);
    if (answer != TCPCORE_DONE)
        return answer;
    struct tcpcore_host_id here = *id;
    return tcp_c_host_resend(handle_of(host), now, &here, from, to);
}
#endif

/* The texts, by their answers. */
static const char *const TEXTS[] = {
    [TCPCORE_DONE] = "done",
    [TCPCORE_TOO_SHORT] = "a segment of fewer than 20 bytes",
    [TCPCORE_TOO_LONG] = "a segment of more than 65,515 bytes",
    [TCPCORE_BAD_CHECKSUM] = "the segment's checksum is wrong",
    [TCPCORE_BAD_OFFSET] = "the segment's data offset is wrong",
    [TCPCORE_BAD_OPTION] = "the length of one of the segment's options is wrong",
    [TCPCORE_BAD_PADDING] = "the padding behind the segment's options isn't 0",
    [TCPCORE_NOT_OPEN] = "not open yet",
    [TCPCORE_ALREADY_OPEN] = "open already, or opened before",
    [TCPCORE_CLOSING] = "closed by this side",
    [TCPCORE_ENDED] = "the connection has ended",
    [TCPCORE_STREAM_FULL] = "this side has sent as many bytes as the limit allows",
    [TCPCORE_NOT_CONNECTED] = "no peer is known yet",
    [TCPCORE_BAD_CAPACITY] = "a capacity isn't from 1 to 1,048,576 bytes",
    [TCPCORE_NO_MEMORY] = "the block is too small",
    [TCPCORE_BAD_MSS] = "the maximum segment size isn't from 64 to 1,460 bytes",
    [TCPCORE_BAD_SHIFT] = "the window shift is above 14",
    [TCPCORE_BAD_LIMIT] = "the limit isn't from 1 to 2^62 bytes",
    [TCPCORE_BAD_ADDR] = "the address is 0.0.0.0",
    [TCPCORE_BAD_PORT] = "the port is 0",
    [TCPCORE_BAD_RUNS] = "the number of runs is above 4,096",
    [TCPCORE_BAD_RULES] = "no timeout can be made from the rules, or no congestion window has this number",
    [TCPCORE_NO_END] = "no end is in the struct",
    [TCPCORE_IN_USE] = "the struct holds an end already, or the connection a recovery",
    [TCPCORE_ROOM] = "too little room for a segment",
    [TCPCORE_NO_TIMER] = "no timer has this number",
    [TCPCORE_NULL] = "a pointer is NULL",
    [TCPCORE_LENGTH] = "a length is above PTRDIFF_MAX",
    [TCPCORE_COPIED] = "the struct was copied, moved or never set",
    [TCPCORE_OVERLAP] = "a buffer or a pointer overlaps the struct or another one",
    [TCPCORE_NO_TIME_WAIT] = "no TIME-WAIT record is in the struct",
    [TCPCORE_NOTHING] = "nothing to read yet",
    [TCPCORE_END_OF_STREAM] = "the peer has closed, and all its bytes were read",
    [TCPCORE_NOT_DUE] = "no segment is due",
    [TCPCORE_NO_RULE] = "no rule applies: the timer isn't running, nothing is in flight there, or text or a FIN was sent already",
    [TCPCORE_DROPPED] = "the segment was passed over",
    [TCPCORE_NOT_MINE] = "the segment is another connection's",
    [TCPCORE_NOT_TIME_WAIT] = "not in TIME-WAIT, or bytes are unread",
    [TCPCORE_EMIT_FIRST] = "a timer has expired: what is due goes out first",
    [TCPCORE_WITHHELD] = "a reset that counts as lost",
    [TCPCORE_TAKEN] = "somebody of the host has these values already",
    [TCPCORE_GONE] = "the connection or the listener of this name is gone",
    [TCPCORE_BACKLOG_FULL] = "the listener's backlog is full",
    [TCPCORE_NOBODY] = "nobody waits",
};

const char *tcpcore_strerror(uint32_t answer)
{
    const char *text = answer < sizeof TEXTS / sizeof *TEXTS ? TEXTS[answer] : NULL;
    return text ? text : "unknown answer";
}

uint32_t tcpcore_version(void) { return TCPCORE_VERSION; }

/* Of the library that this is linked with no more is known than that it is machine code: who compiles this over one by name says more. */
#ifndef TCPCORE_BUILD
#define TCPCORE_BUILD "machine code"
#endif

const char *tcpcore_build(void) { return TCPCORE_BUILD; }
