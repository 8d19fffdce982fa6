/*
 * The calls of a connection, made by C in one crossing from Go, and answers by value, as batch.h has them for an end.
 */
#ifndef TCPCORE_CONNECTION_H
#define TCPCORE_CONNECTION_H

#include "batch.h"

struct connection_made {
    tcpcore_connection *raw;
    uint32_t answer;
};

/* Makes a connection in a block of which its struct is the front: one that listens, or one to this address and port. */
static inline struct connection_made connection_make(const tcpcore_config *config, const struct tcpcore_connection_rules *rules,
                                                     uint32_t listens, tcpcore_addr addr, uint16_t port, uint64_t now,
                                                     unsigned char *block, size_t length)
{
    struct connection_made made = {(tcpcore_connection *)(void *)block, 0};
    const tcpcore_connection none = TCPCORE_CONNECTION_INIT;
    unsigned char *rest = block + sizeof none;
    *made.raw = none;
    made.answer = listens ? tcpcore_connection_listen(made.raw, config, rules, now, rest, length - sizeof none)
                          : tcpcore_connection_connect(made.raw, config, rules, addr, port, now, rest, length - sizeof none);
    return made;
}

struct connection_arrived {
    struct tcpcore_arrive_report report;
    uint32_t answer;
};

static inline struct connection_arrived connection_arrive(tcpcore_connection *connection, uint64_t now, tcpcore_addr src, tcpcore_addr dst,
                                                          const unsigned char *bytes, size_t length)
{
    struct connection_arrived told;
    told.answer = tcpcore_connection_arrive(connection, now, src, dst, bytes, length, &told.report);
    return told;
}

static inline struct connection_arrived connection_arrive_vouched(tcpcore_connection *connection, uint64_t now, tcpcore_addr src,
                                                                  tcpcore_addr dst, const unsigned char *bytes, size_t length)
{
    struct connection_arrived told;
    told.answer = tcpcore_connection_arrive_vouched(connection, now, src, dst, bytes, length, &told.report);
    return told;
}

struct connection_congested {
    struct tcpcore_congestion congestion;
    uint32_t answer;
};

static inline struct connection_congested connection_congestion(const tcpcore_connection *connection)
{
    struct connection_congested told;
    told.answer = tcpcore_connection_congestion(connection, &told.congestion);
    return told;
}

struct connection_peered {
    tcpcore_addr addr;
    uint16_t port;
    uint32_t answer;
};

static inline struct connection_peered connection_peer(const tcpcore_connection *connection)
{
    struct connection_peered told;
    told.answer = tcpcore_connection_peer(connection, &told.addr, &told.port);
    return told;
}

struct connection_emitted {
    struct tcpcore_connection_segment segment;
    uint32_t answer;
};

static inline struct connection_emitted connection_emit(tcpcore_connection *connection, uint64_t now, uint64_t window, unsigned char *out)
{
    struct connection_emitted told;
    told.answer = tcpcore_connection_emit(connection, now, window, out, TCPCORE_EMIT_ROOM, &told.segment);
    return told;
}

struct connection_trained {
    struct tcpcore_train train;
    uint32_t answer;
};

static inline struct connection_trained connection_emit_train(tcpcore_connection *connection, uint64_t now, uint64_t window, void *out,
                                                              size_t room, size_t most)
{
    struct connection_trained told;
    told.answer = tcpcore_connection_emit_train(connection, now, window, out, room, most, &told.train);
    return told;
}

struct connection_time {
    uint64_t at;
    uint32_t answer;
};

static inline struct connection_time connection_poll_at(const tcpcore_connection *connection)
{
    struct connection_time told;
    told.answer = tcpcore_connection_poll_at(connection, &told.at);
    return told;
}

struct connection_timer {
    uint32_t timer, answer;
};

static inline struct connection_timer connection_timeout(tcpcore_connection *connection, uint64_t now)
{
    struct connection_timer told;
    told.answer = tcpcore_connection_timeout(connection, now, &told.timer);
    return told;
}

static inline struct batch_count connection_send(tcpcore_connection *connection, uint64_t now, const unsigned char *text, size_t length)
{
    struct batch_count told;
    told.answer = tcpcore_connection_send(connection, now, text, length, &told.count);
    return told;
}

static inline struct batch_count connection_receive(tcpcore_connection *connection, uint64_t now, unsigned char *out, size_t room)
{
    struct batch_count told;
    told.answer = tcpcore_connection_receive(connection, now, out, room, &told.count);
    return told;
}

static inline struct batch_count connection_consume(tcpcore_connection *connection, uint64_t now, size_t count)
{
    struct batch_count told;
    told.answer = tcpcore_connection_consume(connection, now, count, &told.count);
    return told;
}

struct connection_lent {
    struct tcpcore_lent lent;
    uint32_t answer;
};

static inline struct connection_lent connection_peek(const tcpcore_connection *connection)
{
    struct connection_lent told;
    told.answer = tcpcore_connection_peek(connection, &told.lent);
    return told;
}

static inline struct batch_status connection_status(const tcpcore_connection *connection)
{
    struct batch_status told;
    told.answer = tcpcore_connection_status(connection, &told.status);
    return told;
}

/* A turn of a connection: how far it has come, as of a batch; the timers that expired, bit 1 << t for timer t; and behind the turn what
   poll_at reports, and the phase. */
struct connection_told {
    struct batch_told batch;
    uint64_t poll_at;
    uint32_t expired, phase;
};

/* A turn's connection, when it is, and where what is emitted goes. */
struct connection_turn {
    tcpcore_connection *raw;
    uint64_t now, window;
    struct batch out;
};

/* Emits until nothing is due, which is DONE, or until the batch is full; but no more than `most` segments. */
static inline uint32_t connection_emit_due(struct connection_turn *turn, struct batch_told *told, size_t most)
{
    struct batch *out = &turn->out;
    struct tcpcore_connection_segment segment;
    for (size_t left = most; left > 0; left--) {
        if (!batch_has_room(out)) {
            told->emit_first = 1;
            return TCPCORE_DONE;
        }
        unsigned char *place = out->bytes + out->taken.used;
        uint32_t answer = tcpcore_connection_emit(turn->raw, turn->now, turn->window, place, TCPCORE_EMIT_ROOM, &segment);
        if (answer != TCPCORE_DONE)
            return answer == TCPCORE_NOT_DUE ? TCPCORE_DONE : answer;
        struct batch_record *record = &out->records[out->taken.count++];
        record->at = out->taken.used;
        record->length = (size_t)segment.length;
        record->to = segment.to;
        out->taken.used += record->length;
    }
    return TCPCORE_DONE;
}

/* Hands in the segments from `next` on, and emits behind each that has to be answered at once; first where a timer has expired. */
static inline uint32_t connection_arrive_all(struct connection_turn *turn, tcpcore_addr src, tcpcore_addr dst, const unsigned char *bytes,
                                             struct batch_record *records, size_t count, struct batch_told *told)
{
    struct tcpcore_arrive_report report;
    uint32_t answer = TCPCORE_DONE;
    size_t next = told->next;
    while (next < count && answer == TCPCORE_DONE && !told->emit_first) {
        struct batch_record *record = &records[next];
        record->answer = tcpcore_connection_arrive(turn->raw, turn->now, src, dst, bytes + record->at, record->length, &report);
        record->at_once = report.at_once;
        if (batch_is_refused(record->answer))
            return record->answer;
        if (record->answer != TCPCORE_EMIT_FIRST)
            next++;
        if (record->answer == TCPCORE_EMIT_FIRST || record->at_once)
            answer = connection_emit_due(turn, told, SIZE_MAX);
    }
    told->next = next;
    return answer;
}

/* Where a turn goes on, what had no room. */
static inline uint32_t connection_emit_first(struct connection_turn *turn, struct batch_told *told)
{
    if (!told->emit_first)
        return TCPCORE_DONE;
    told->emit_first = 0;
    return connection_emit_due(turn, told, SIZE_MAX);
}

/* Has each timer that has expired do what it does, and emits behind it. */
static inline uint32_t connection_expire(struct connection_turn *turn, uint32_t *expired, struct batch_told *told)
{
    uint32_t timer, answer = TCPCORE_DONE;
    while (answer == TCPCORE_DONE && !told->emit_first) {
        answer = tcpcore_connection_timeout(turn->raw, turn->now, &timer);
        if (answer == TCPCORE_NOT_DUE)
            return TCPCORE_DONE;
        if (answer == TCPCORE_DONE) {
            *expired |= UINT32_C(1) << timer;
            answer = connection_emit_due(turn, told, SIZE_MAX);
        }
    }
    return answer;
}

/* The calls of the user, and what is due behind them, as batch_use has them. */
static inline uint32_t connection_use(struct connection_turn *turn, const struct batch_texts *texts, unsigned char *read, size_t room,
                                      struct batch_told *told)
{
    size_t next = told->next_text, count = texts->records ? texts->count : texts->count > 0;
    if (!told->is_read) {
        told->is_read = 1;
        if (room > 0)
            told->got.answer = tcpcore_connection_receive(turn->raw, turn->now, read, room, &told->got.count);
        if (count == 0)
            return connection_emit_due(turn, told, SIZE_MAX);
    }
    uint32_t answer = TCPCORE_DONE;
    while (next < count && answer == TCPCORE_DONE && !told->emit_first) {
        size_t length, taken;
        const unsigned char *text = batch_text(texts, next, &length);
        told->sent.answer = tcpcore_connection_send(turn->raw, turn->now, text, length, &taken);
        told->sent.count += taken;
        next = taken < length ? count : next + 1;
        answer = connection_emit_due(turn, told, next < count ? 1 : SIZE_MAX);
    }
    told->next_text = next;
    return answer;
}

/* A turn: what arrived, the user's calls, what is due, and the timers; up to the first that is refused or has no more room. */
static inline void connection_exchange(tcpcore_connection *connection, uint64_t now, uint64_t window, tcpcore_addr src, tcpcore_addr dst,
                                       const unsigned char *bytes, struct batch_record *records, size_t count, const unsigned char *text,
                                       const struct batch_record *text_records, size_t text_count, unsigned char *read, size_t room,
                                       unsigned char *out_bytes, struct batch_record *out_records, struct batch_taken *taken,
                                       struct connection_told *told)
{
    struct batch out = {out_bytes, out_records, {taken->room, taken->most, taken->used, taken->count}};
    struct batch_texts texts = {text, text_records, text_count};
    struct connection_turn turn = {connection, now, window, out};
    uint32_t answer = connection_emit_first(&turn, &told->batch);
    if (answer == TCPCORE_DONE)
        answer = connection_arrive_all(&turn, src, dst, bytes, records, count, &told->batch);
    if (answer == TCPCORE_DONE && !told->batch.emit_first)
        answer = connection_use(&turn, &texts, read, room, &told->batch);
    if (answer == TCPCORE_DONE && !told->batch.emit_first)
        answer = connection_expire(&turn, &told->expired, &told->batch);
    if (answer == TCPCORE_DONE && !told->batch.emit_first) {
        told->poll_at = connection_poll_at(connection).at;
        told->phase = connection_status(connection).status.phase;
    }
    batch_end(&turn.out, taken, answer, &told->batch);
}

#endif
