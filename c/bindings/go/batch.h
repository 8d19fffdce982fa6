/*
 * The calls of a batch, made by C in one crossing from Go. Segments lie one behind the other in one buffer, with a record of each beside
 * it. What a turn tells is written where its end or its batch has it: a crossing pays for each word that goes by value, there and back.
 * A single call's answer goes by value, since it would else be allocated.
 */
#ifndef TCPCORE_BATCH_H
#define TCPCORE_BATCH_H

#include "tcpcore.h"

/* A segment of a batch: where it lies, whom it is for once it was emitted, and its answer once it has arrived. */
struct batch_record {
    size_t at, length;
    tcpcore_addr to;
    uint32_t answer, at_once;
};

/* How much of a batch is taken: bytes of its room, and records of the most that it has. */
struct batch_taken {
    size_t room, most, used, count;
};

/* A batch, whose memory is Go's, as a turn goes on. */
struct batch {
    unsigned char *bytes;
    struct batch_record *records;
    struct batch_taken taken;
};

struct batch_count {
    size_t count;
    uint32_t answer;
};

/* How far a turn has come: the next segment to be handed in, and the next text to be sent; what the user's calls moved and answered;
   whether what is due has to be emitted before all else, as where a batch had no room for it: then the same call goes on; and whether the
   user has read. All 0 before the turn. */
struct batch_told {
    size_t next, next_text;
    struct batch_count sent, got;
    uint32_t answer, emit_first, is_read;
};

/* Writes the segment that is due behind the last one, and sets its kind. */
static inline uint32_t batch_write(tcpcore_end *end, struct batch *out, uint32_t *kind)
{
    struct batch_record *record = &out->records[out->taken.count];
    struct tcpcore_transmit transmit;
    uint32_t answer = tcpcore_transmit(end, out->bytes + out->taken.used, TCPCORE_EMIT_ROOM, &transmit);
    if (answer != TCPCORE_DONE)
        return answer;
    record->at = out->taken.used;
    record->length = (size_t)transmit.length;
    record->to = transmit.to;
    out->taken.used += record->length;
    out->taken.count++;
    *kind = transmit.kind;
    return TCPCORE_DONE;
}

static inline int batch_has_room(const struct batch *out)
{
    return out->taken.count < out->taken.most && out->taken.room - out->taken.used >= TCPCORE_EMIT_ROOM;
}

/* Emits until nothing is due, which is DONE, or until the batch is full; but no more than `most` segments. An acknowledgement alone is due
   last (docs/RULES.md, Emission): behind it nothing is. */
static inline uint32_t batch_emit(tcpcore_end *end, struct batch *out, struct batch_told *told, size_t most)
{
    uint32_t kind = TCPCORE_KIND_RESET;
    for (size_t left = most; left > 0 && kind != TCPCORE_KIND_ACKNOWLEDGEMENT; left--) {
        if (!batch_has_room(out)) {
            told->emit_first = 1;
            return TCPCORE_DONE;
        }
        uint32_t answer = batch_write(end, out, &kind);
        if (answer != TCPCORE_DONE)
            return answer == TCPCORE_NOT_DUE ? TCPCORE_DONE : answer;
    }
    return TCPCORE_DONE;
}

/* Whether an answer says that the call wasn't made. */
static inline int batch_is_refused(uint32_t answer) { return answer >= TCPCORE_NO_END && answer < TCPCORE_NOTHING; }

/* What a call of C has come to, written where Go has it. */
static inline void batch_end(const struct batch *out, struct batch_taken *taken, uint32_t answer, struct batch_told *told)
{
    /* Where nothing was emitted nothing is written: the batch of a call that emits none is shared by all ends. */
    if (taken->count != out->taken.count) {
        taken->used = out->taken.used;
        taken->count = out->taken.count;
    }
    told->answer = answer;
}

/* When a turn emits: never, behind each segment that has to be answered at once, or behind the last one, too. */
enum { BATCH_NEVER, BATCH_AT_ONCE, BATCH_AT_ONCE_AND_LAST };

/* Hands in the segments from `next` on, and emits as `emits` says. */
static inline uint32_t batch_arrive(tcpcore_end *end, tcpcore_addr src, tcpcore_addr dst, const unsigned char *bytes,
                                    struct batch_record *records, size_t count, int emits, struct batch *out, struct batch_told *told)
{
    uint32_t answer = TCPCORE_DONE;
    size_t next = told->next;
    while (next < count && answer == TCPCORE_DONE && !told->emit_first) {
        struct batch_record *record = &records[next];
        record->answer = tcpcore_arrive_with_at_once(end, src, dst, bytes + record->at, record->length, &record->at_once);
        if (batch_is_refused(record->answer))
            return record->answer;
        next++;
        int is_last = next == count && emits == BATCH_AT_ONCE_AND_LAST;
        if (is_last || (record->at_once && emits != BATCH_NEVER))
            answer = batch_emit(end, out, told, SIZE_MAX);
    }
    told->next = next;
    return answer;
}

/* Where a turn goes on, what had no room. */
static inline uint32_t batch_emit_first(tcpcore_end *end, struct batch *out, struct batch_told *told)
{
    if (!told->emit_first)
        return TCPCORE_DONE;
    told->emit_first = 0;
    return batch_emit(end, out, told, SIZE_MAX);
}

/* Texts that the user sends: `count` of them, or without records one of so many bytes. */
struct batch_texts {
    const unsigned char *bytes;
    const struct batch_record *records;
    size_t count;
};

/* A text, by its number. */
static inline const unsigned char *batch_text(const struct batch_texts *texts, size_t number, size_t *length)
{
    *length = texts->records ? texts->records[number].length : texts->count;
    return texts->records ? texts->bytes + texts->records[number].at : texts->bytes;
}

/* The calls of the user, and what is due behind them: `read` takes what came, unless its length is 0, and each text is sent, up to one that
   isn't taken whole, with a segment behind each, and all that is due behind the last. */
static inline uint32_t batch_use(tcpcore_end *end, const struct batch_texts *texts, unsigned char *read, size_t room, struct batch *out,
                                 struct batch_told *told)
{
    size_t next = told->next_text, count = texts->records ? texts->count : texts->count > 0;
    if (!told->is_read) {
        told->is_read = 1;
        if (room > 0)
            told->got.answer = tcpcore_receive(end, read, room, &told->got.count);
        if (count == 0)
            return batch_emit(end, out, told, SIZE_MAX);
    }
    uint32_t answer = TCPCORE_DONE;
    while (next < count && answer == TCPCORE_DONE && !told->emit_first) {
        size_t length, taken;
        const unsigned char *text = batch_text(texts, next, &length);
        told->sent.answer = tcpcore_send(end, text, length, &taken);
        told->sent.count += taken;
        next = taken < length ? count : next + 1;
        answer = batch_emit(end, out, told, next < count ? 1 : SIZE_MAX);
    }
    told->next_text = next;
    return answer;
}

static inline void batch_turn(tcpcore_end *end, tcpcore_addr src, tcpcore_addr dst, const unsigned char *bytes,
                              struct batch_record *records, size_t count, uint32_t emits, unsigned char *out_bytes,
                              struct batch_record *out_records, struct batch_taken *taken, struct batch_told *told)
{
    struct batch out = {out_bytes, out_records, {taken->room, taken->most, taken->used, taken->count}};
    uint32_t answer = batch_emit_first(end, &out, told);
    if (answer == TCPCORE_DONE)
        answer = batch_arrive(end, src, dst, bytes, records, count, emits ? BATCH_AT_ONCE_AND_LAST : BATCH_NEVER, &out, told);
    batch_end(&out, taken, answer, told);
}

static inline struct batch_count batch_send(tcpcore_end *end, const unsigned char *text, size_t length)
{
    struct batch_count told = {0, 0};
    told.answer = tcpcore_send(end, text, length, &told.count);
    return told;
}

static inline struct batch_count batch_receive(tcpcore_end *end, unsigned char *out, size_t room)
{
    struct batch_count told = {0, 0};
    told.answer = tcpcore_receive(end, out, room, &told.count);
    return told;
}

/* A turn with the calls of the user between what arrives and what is emitted last. */
static inline void batch_exchange(tcpcore_end *end, tcpcore_addr src, tcpcore_addr dst, const unsigned char *bytes,
                                  struct batch_record *records, size_t count, const unsigned char *text,
                                  const struct batch_record *text_records, size_t text_count, unsigned char *read, size_t room,
                                  unsigned char *out_bytes, struct batch_record *out_records, struct batch_taken *taken,
                                  struct batch_told *told)
{
    struct batch out = {out_bytes, out_records, {taken->room, taken->most, taken->used, taken->count}};
    struct batch_texts texts = {text, text_records, text_count};
    uint32_t answer = batch_emit_first(end, &out, told);
    if (answer == TCPCORE_DONE)
        answer = batch_arrive(end, src, dst, bytes, records, count, BATCH_AT_ONCE, &out, told);
    if (answer == TCPCORE_DONE && !told->emit_first)
        answer = batch_use(end, &texts, read, room, &out, told);
    batch_end(&out, taken, answer, told);
}

struct batch_emitted {
    size_t length;
    tcpcore_addr to;
    uint32_t answer;
};

static inline struct batch_emitted batch_emit_one(tcpcore_end *end, unsigned char *out)
{
    struct batch_emitted told = {0, {{0}}, 0};
    told.answer = tcpcore_emit(end, out, TCPCORE_EMIT_ROOM, &told.to, &told.length);
    return told;
}

static inline struct batch_emitted batch_arrive_one(tcpcore_end *end, tcpcore_addr src, tcpcore_addr dst, const unsigned char *bytes,
                                                    size_t length)
{
    struct batch_emitted told = {0, {{0}}, 0};
    uint32_t at_once = 0;
    told.answer = tcpcore_arrive_with_at_once(end, src, dst, bytes, length, &at_once);
    told.length = at_once;
    return told;
}

struct batch_status {
    struct tcpcore_status status;
    uint32_t answer;
};

static inline struct batch_status batch_status(const tcpcore_end *end)
{
    struct batch_status told;
    told.answer = tcpcore_status(end, &told.status);
    return told;
}

#endif
