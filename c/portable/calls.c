/*
 * The library's calls by the module's: records are carried into the machine's memory and back, buffers are seen through windows.
 * The struct's first two words are those of this file: where the block begins; and the end's address in the module beside a mark,
 * without which the struct holds no end.
 */
enum {
    AT_HANDLE = MODULE_STACK,
    AT_BLOCK = AT_HANDLE + 16,
    AT_SRC = AT_BLOCK + 16,
    AT_DST = AT_SRC + 8,
    AT_FOUND = AT_DST + 8,
    AT_OTHER = AT_FOUND + 8,
    AT_RECORD = AT_OTHER + 8,
    RECORD = 104,
    AT_RULES = AT_RECORD + RECORD,
    FRAME = AT_RULES + 80
};

/* crates/tcp_c: the mark of a handle that holds an end, and how many bytes of the block it takes from its address on. */
#define MARK_OF_LIVE UINT64_C(0x744350526174746c)
#define END_SIZE 416
#define MARK UINT32_C(0x706f7274)

struct call {
    Machine machine;
    u8 frame[FRAME];
};

/* How many bytes each field of a record has, in turn. */
static const u8 OF_CONFIG[] = {1, 1, 1, 1, 2, 2, 4, 4, 8, 8, 8, 1, 1, 1, 1, 2, 2, 0};
static const u8 OF_STATUS[] = {4, 4, 8, 8, 8, 8, 8, 8, 8, 8, 4, 1, 1, 1, 1, 4, 4, 8, 4, 4, 0};
static const u8 OF_ARRIVE_REPORT[] = {4, 4, 8, 4, 4, 4, 0};
static const u8 OF_INTAKE[] = {4, 4, 0};
static const u8 OF_TRANSMIT[] = {1, 1, 1, 1, 4, 8, 8, 8, 0};
static const u8 OF_TRAIN[] = {1, 1, 1, 1, 4, 8, 8, 8, 8, 8, 8, 0};
static const u8 OF_LENT[] = {8, 8, 8, 8, 4, 0};
static const u8 OF_PARTS[] = {1, 1, 1, 1, 4, 8, 8, 8, 8, 0};
static const u8 OF_TIME_WAIT[] = {4, 1, 1, 1, 1, 1, 1, 1, 1, 2, 2, 4, 4, 4, 1, 1, 1, 1, 4, 4, 2, 1, 1, 2, 2, 0};

/* Carries a record between the program's memory and the module's: their fields lie at the same places. */
static void carry_record(void *to, const void *from, const u8 *sizes)
{
    u8 *out = to;
    const u8 *in = from;
    for (; *sizes > 0; out += *sizes, in += *sizes, sizes++)
        for (unsigned i = 0; i < *sizes; i++)
            out[i] = in[IS_REVERSED ? *sizes - 1 - i : i];
}

STEP void see(struct call *call, int window, const void *data, size_t size)
{
    struct window found = {(u8 *)(uintptr_t)data, size < PLACE ? (u32)size : PLACE};
    call->machine.w2c_memory.read[window] = call->machine.w2c_memory.written[window] = found;
}

/* A buffer that is read alone. */
STEP void see_read(struct call *call, const void *data, size_t size)
{
    see(call, IN_READ, data, size);
    call->machine.w2c_memory.written[IN_READ].size = 0;
}

STEP u64 length_of(size_t size) { return size < PLACE ? size : PLACE; }

STEP void begin(struct call *call)
{
    call->machine.w2c___stack_pointer = MODULE_STACK;
    call->machine.w2c_in_call = 0;
    see(call, IN_STACK, call->frame, FRAME);
    see(call, IN_BLOCK, NULL, 0); /* until a call shows it; so of the others */
    see(call, IN_READ, NULL, 0);
    see(call, IN_WRITTEN, NULL, 0);
    memset(call->frame + AT_HANDLE, 0, 2 * sizeof(u64));
}

/* With what is in the handle, if that has this mark; the module's handles of its kind have the mark `live`. */
STEP void begin_as(struct call *call, const struct handle *handle, u32 mark, u64 live, u32 size)
{
    begin(call);
    if (handle->at >> 32 != mark)
        return;
    u32 at = (u32)handle->at;
    see(call, IN_BLOCK, (const void *)(uintptr_t)handle->mark, (at & PLACE) + size);
    put64(call->frame + AT_HANDLE, live);
    put64(call->frame + AT_HANDLE + 8, at);
}

/* The handle as the call has left it. */
STEP void end_as(const struct call *call, struct handle *handle, u32 mark, u64 live)
{
    int is_live = get64(call->frame + AT_HANDLE) == live;
    handle->mark = is_live ? (uintptr_t)call->machine.w2c_memory.read[IN_BLOCK].data : 0;
    handle->at = is_live ? (u64)mark << 32 | get32(call->frame + AT_HANDLE + 8) : 0;
}

/* Of an end. */
STEP void begin_with(struct call *call, const struct handle *handle) { begin_as(call, handle, MARK, MARK_OF_LIVE, END_SIZE); }
STEP void end_with(const struct call *call, struct handle *handle) { end_as(call, handle, MARK, MARK_OF_LIVE); }

/* An address is bytes, which lie the same on any machine. */
STEP void put_addr(struct call *call, u32 at, const tcpcore_addr *addr) { memcpy(call->frame + at, addr, sizeof *addr); }
STEP void get_addr(const struct call *call, tcpcore_addr *addr) { memcpy(addr, call->frame + AT_DST, sizeof *addr); }

/* A call of the module, with the end in the handle: `made` is its name and what stands behind the handle. */
#define WITH_END(handle) \
    struct call call; \
    begin_with(&call, handle)
#define ANSWER(handle, made) \
    uint32_t answer = made; \
    end_with(&call, handle); \
    return answer
#define M (&call.machine)

static uint32_t tcp_c_new(struct handle *handle, const tcpcore_config *config, struct block block)
{
    WITH_END(handle);
    if (get64(call.frame + AT_HANDLE) != MARK_OF_LIVE)
        see(&call, IN_BLOCK, block.at, block.size);
    carry_record(call.frame + AT_RECORD, config, OF_CONFIG);
    put64(call.frame + AT_BLOCK, WINDOW(IN_BLOCK));
    put64(call.frame + AT_BLOCK + 8, length_of(block.size) / UNIT * UNIT);
    ANSWER(handle, w2c_tcp_c_new(M, AT_HANDLE, AT_RECORD, AT_BLOCK));
}

static size_t tcp_c_room(const tcpcore_config *config)
{
    struct call call;
    begin(&call);
    carry_record(call.frame + AT_RECORD, config, OF_CONFIG);
    return (size_t)w2c_tcp_c_room(M, AT_RECORD);
}

static uint32_t tcp_c_free(struct handle *handle)
{
    WITH_END(handle);
    ANSWER(handle, w2c_tcp_c_free(M, AT_HANDLE));
}

static uint32_t tcp_c_connect(struct handle *handle, const tcpcore_addr *addr, uint16_t port)
{
    WITH_END(handle);
    put_addr(&call, AT_DST, addr);
    ANSWER(handle, w2c_tcp_c_connect(M, AT_HANDLE, AT_DST, port));
}

static uint32_t tcp_c_listen(struct handle *handle)
{
    WITH_END(handle);
    ANSWER(handle, w2c_tcp_c_listen(M, AT_HANDLE));
}

static uint32_t tcp_c_send(struct handle *handle, const uint8_t *text, size_t length, size_t *taken)
{
    WITH_END(handle);
    see_read(&call, text, length);
    put64(call.frame + AT_FOUND, 0);
    uint32_t answer = w2c_tcp_c_send(M, AT_HANDLE, WINDOW(IN_READ), length_of(length), AT_FOUND);
    *taken = (size_t)get64(call.frame + AT_FOUND);
    end_with(&call, handle);
    return answer;
}

static uint32_t tcp_c_receive(struct handle *handle, uint8_t *out, size_t room, size_t *count)
{
    WITH_END(handle);
    see(&call, IN_WRITTEN, out, room);
    put64(call.frame + AT_FOUND, 0);
    uint32_t answer = w2c_tcp_c_receive(M, AT_HANDLE, WINDOW(IN_WRITTEN), length_of(room), AT_FOUND);
    *count = (size_t)get64(call.frame + AT_FOUND);
    end_with(&call, handle);
    return answer;
}

/* Where the program sees what the module lends of the block. */
STEP uint64_t lent_at(const struct call *call, uint64_t at)
{
    return (uintptr_t)call->machine.w2c_memory.read[IN_BLOCK].data + ((u32)at & PLACE);
}

static uint32_t tcp_c_peek(struct handle *handle, struct lent *lent)
{
    WITH_END(handle);
    carry_record(call.frame + AT_RECORD, lent, OF_LENT);
    uint32_t answer = w2c_tcp_c_peek(M, AT_HANDLE, AT_RECORD);
    carry_record(lent, call.frame + AT_RECORD, OF_LENT);
    lent->first = lent_at(&call, lent->first);
    lent->second = lent_at(&call, lent->second);
    end_with(&call, handle);
    return answer;
}

static uint32_t tcp_c_consume(struct handle *handle, size_t count, size_t *taken)
{
    WITH_END(handle);
    put64(call.frame + AT_FOUND, 0);
    uint32_t answer = w2c_tcp_c_consume(M, AT_HANDLE, count, AT_FOUND);
    *taken = (size_t)get64(call.frame + AT_FOUND);
    end_with(&call, handle);
    return answer;
}

static uint32_t tcp_c_acknowledge(struct handle *handle)
{
    WITH_END(handle);
    ANSWER(handle, w2c_tcp_c_acknowledge(M, AT_HANDLE));
}

static uint32_t tcp_c_close(struct handle *handle)
{
    WITH_END(handle);
    ANSWER(handle, w2c_tcp_c_close(M, AT_HANDLE));
}

static uint32_t tcp_c_abort(struct handle *handle)
{
    WITH_END(handle);
    ANSWER(handle, w2c_tcp_c_abort(M, AT_HANDLE));
}

static uint32_t tcp_c_timer(struct handle *handle, uint32_t timer)
{
    WITH_END(handle);
    ANSWER(handle, w2c_tcp_c_timer(M, AT_HANDLE, timer));
}

/* A segment has come from one address to the other. */
STEP void put_segment(struct call *call, const tcpcore_addr *src, const tcpcore_addr *dst, const uint8_t *bytes, size_t length)
{
    put_addr(call, AT_SRC, src);
    put_addr(call, AT_DST, dst);
    see_read(call, bytes, length);
}

static uint32_t tcp_c_arrive(struct handle *handle, const tcpcore_addr *src, const tcpcore_addr *dst, const uint8_t *bytes,
                             size_t length)
{
    WITH_END(handle);
    put_segment(&call, src, dst, bytes, length);
    ANSWER(handle, w2c_tcp_c_arrive(M, AT_HANDLE, AT_SRC, AT_DST, WINDOW(IN_READ), length_of(length)));
}

static uint32_t tcp_c_arrive_with_at_once(struct handle *handle, const tcpcore_addr *src, const tcpcore_addr *dst,
                                          const uint8_t *bytes, size_t length, uint32_t *at_once)
{
    WITH_END(handle);
    put_segment(&call, src, dst, bytes, length);
    put32(call.frame + AT_FOUND, 0);
    uint32_t answer = w2c_tcp_c_arrive_with_at_once(M, AT_HANDLE, AT_SRC, AT_DST, WINDOW(IN_READ), length_of(length), AT_FOUND);
    *at_once = get32(call.frame + AT_FOUND);
    end_with(&call, handle);
    return answer;
}

static uint32_t tcp_c_arrive_with_report(struct handle *handle, const tcpcore_addr *src, const tcpcore_addr *dst,
                                         const uint8_t *bytes, size_t length, struct tcpcore_arrive_report *taken)
{
    WITH_END(handle);
    put_segment(&call, src, dst, bytes, length);
    carry_record(call.frame + AT_RECORD, taken, OF_ARRIVE_REPORT);
    uint32_t answer = w2c_tcp_c_arrive_with_report(M, AT_HANDLE, AT_SRC, AT_DST, WINDOW(IN_READ), length_of(length), AT_RECORD);
    carry_record(taken, call.frame + AT_RECORD, OF_ARRIVE_REPORT);
    end_with(&call, handle);
    return answer;
}

static uint32_t tcp_c_arrive_vouched(struct handle *handle, const tcpcore_addr *src, const tcpcore_addr *dst, const uint8_t *bytes,
                                     size_t length)
{
    WITH_END(handle);
    put_segment(&call, src, dst, bytes, length);
    ANSWER(handle, w2c_tcp_c_arrive_vouched(M, AT_HANDLE, AT_SRC, AT_DST, WINDOW(IN_READ), length_of(length)));
}

static uint32_t tcp_c_arrive_vouched_with_report(struct handle *handle, const tcpcore_addr *src, const tcpcore_addr *dst,
                                                 const uint8_t *bytes, size_t length, struct tcpcore_arrive_report *taken)
{
    WITH_END(handle);
    put_segment(&call, src, dst, bytes, length);
    carry_record(call.frame + AT_RECORD, taken, OF_ARRIVE_REPORT);
    uint32_t answer = w2c_tcp_c_arrive_vouched_with_report(M, AT_HANDLE, AT_SRC, AT_DST, WINDOW(IN_READ), length_of(length), AT_RECORD);
    carry_record(taken, call.frame + AT_RECORD, OF_ARRIVE_REPORT);
    end_with(&call, handle);
    return answer;
}

static uint32_t tcp_c_arrive_by(struct handle *handle, const tcpcore_addr *src, const tcpcore_addr *dst, const uint8_t *bytes,
                                size_t length, const struct tcpcore_intake *intake, struct tcpcore_arrive_report *taken)
{
    WITH_END(handle);
    put_segment(&call, src, dst, bytes, length);
    carry_record(call.frame + AT_OTHER, intake, OF_INTAKE);
    carry_record(call.frame + AT_RECORD, taken, OF_ARRIVE_REPORT);
    uint32_t answer = w2c_tcp_c_arrive_by(M, AT_HANDLE, AT_SRC, AT_DST, WINDOW(IN_READ), length_of(length), AT_OTHER, AT_RECORD);
    carry_record(taken, call.frame + AT_RECORD, OF_ARRIVE_REPORT);
    end_with(&call, handle);
    return answer;
}

/* What a call tells of a segment that it wrote. */
STEP void get_written(const struct call *call, tcpcore_addr *to, size_t *length)
{
    get_addr(call, to);
    *length = (size_t)get64(call->frame + AT_FOUND);
}

STEP void put_written(struct call *call, const tcpcore_addr *to, uint8_t *out, size_t room)
{
    put_addr(call, AT_DST, to);
    put64(call->frame + AT_FOUND, 0);
    see(call, IN_WRITTEN, out, room);
}

static uint32_t tcp_c_emit(struct handle *handle, uint8_t *out, size_t room, tcpcore_addr *to, size_t *length)
{
    WITH_END(handle);
    put_written(&call, to, out, room);
    uint32_t answer = w2c_tcp_c_emit(M, AT_HANDLE, WINDOW(IN_WRITTEN), length_of(room), AT_DST, AT_FOUND);
    get_written(&call, to, length);
    end_with(&call, handle);
    return answer;
}

static uint32_t tcp_c_emit_partial(struct handle *handle, uint8_t *out, size_t room, tcpcore_addr *to, size_t *length)
{
    WITH_END(handle);
    put_written(&call, to, out, room);
    uint32_t answer = w2c_tcp_c_emit_partial(M, AT_HANDLE, WINDOW(IN_WRITTEN), length_of(room), AT_DST, AT_FOUND);
    get_written(&call, to, length);
    end_with(&call, handle);
    return answer;
}

static uint32_t tcp_c_emit_train(struct handle *handle, uint8_t *out, size_t room, size_t most, struct train *train)
{
    WITH_END(handle);
    carry_record(call.frame + AT_RECORD, train, OF_TRAIN);
    see(&call, IN_WRITTEN, out, room);
    uint32_t answer = w2c_tcp_c_emit_train(M, AT_HANDLE, WINDOW(IN_WRITTEN), length_of(room), most, AT_RECORD);
    carry_record(train, call.frame + AT_RECORD, OF_TRAIN);
    end_with(&call, handle);
    return answer;
}

static uint32_t tcp_c_emit_acknowledgement(struct handle *handle, uint8_t *out, size_t room, tcpcore_addr *to, size_t *length)
{
    WITH_END(handle);
    put_written(&call, to, out, room);
    uint32_t answer = w2c_tcp_c_emit_acknowledgement(M, AT_HANDLE, WINDOW(IN_WRITTEN), length_of(room), AT_DST, AT_FOUND);
    get_written(&call, to, length);
    end_with(&call, handle);
    return answer;
}

static uint32_t tcp_c_resend_first(struct handle *handle)
{
    WITH_END(handle);
    ANSWER(handle, w2c_tcp_c_resend_first(M, AT_HANDLE));
}

static uint32_t tcp_c_resend(struct handle *handle, uint64_t from, uint64_t to)
{
    WITH_END(handle);
    ANSWER(handle, w2c_tcp_c_resend(M, AT_HANDLE, from, to));
}

static uint32_t tcp_c_parts(struct handle *handle, uint8_t *header, size_t room, struct parts *parts)
{
    WITH_END(handle);
    carry_record(call.frame + AT_RECORD, parts, OF_PARTS);
    see(&call, IN_WRITTEN, header, room);
    uint32_t answer = w2c_tcp_c_parts(M, AT_HANDLE, WINDOW(IN_WRITTEN), length_of(room), AT_RECORD);
    carry_record(parts, call.frame + AT_RECORD, OF_PARTS);
    parts->first = lent_at(&call, parts->first);
    parts->second = lent_at(&call, parts->second);
    end_with(&call, handle);
    return answer;
}

static uint32_t tcp_c_sent(struct handle *handle)
{
    WITH_END(handle);
    ANSWER(handle, w2c_tcp_c_sent(M, AT_HANDLE));
}

static uint32_t tcp_c_transmit(struct handle *handle, uint8_t *out, size_t room, struct tcpcore_transmit *transmit)
{
    WITH_END(handle);
    carry_record(call.frame + AT_RECORD, transmit, OF_TRANSMIT);
    see(&call, IN_WRITTEN, out, room);
    uint32_t answer = w2c_tcp_c_transmit(M, AT_HANDLE, WINDOW(IN_WRITTEN), length_of(room), AT_RECORD);
    carry_record(transmit, call.frame + AT_RECORD, OF_TRANSMIT);
    end_with(&call, handle);
    return answer;
}

static uint32_t tcp_c_next(struct handle *handle, struct tcpcore_transmit *next)
{
    WITH_END(handle);
    carry_record(call.frame + AT_RECORD, next, OF_TRANSMIT);
    uint32_t answer = w2c_tcp_c_next(M, AT_HANDLE, AT_RECORD);
    carry_record(next, call.frame + AT_RECORD, OF_TRANSMIT);
    end_with(&call, handle);
    return answer;
}

static uint32_t tcp_c_pending(struct handle *handle, uint32_t *due)
{
    WITH_END(handle);
    put32(call.frame + AT_FOUND, 0);
    uint32_t answer = w2c_tcp_c_pending(M, AT_HANDLE, AT_FOUND);
    *due = get32(call.frame + AT_FOUND);
    end_with(&call, handle);
    return answer;
}

static uint32_t tcp_c_stray_reset(const tcpcore_addr *src, const tcpcore_addr *dst, const uint8_t *bytes, size_t length,
                                  uint8_t *out, size_t room, size_t *written)
{
    struct call call;
    begin(&call);
    put_segment(&call, src, dst, bytes, length);
    see(&call, IN_WRITTEN, out, room);
    put64(call.frame + AT_FOUND, 0);
    uint32_t answer = w2c_tcp_c_stray_reset(M, AT_SRC, AT_DST, WINDOW(IN_READ), length_of(length), WINDOW(IN_WRITTEN),
                                            length_of(room), AT_FOUND);
    *written = (size_t)get64(call.frame + AT_FOUND);
    return answer;
}

static uint32_t tcp_c_timers(struct handle *handle, uint32_t *due)
{
    WITH_END(handle);
    put32(call.frame + AT_FOUND, 0);
    uint32_t answer = w2c_tcp_c_timers(M, AT_HANDLE, AT_FOUND);
    *due = get32(call.frame + AT_FOUND);
    end_with(&call, handle);
    return answer;
}

static uint32_t tcp_c_peer(struct handle *handle, tcpcore_addr *addr, uint16_t *port)
{
    WITH_END(handle);
    put_addr(&call, AT_DST, addr);
    put16(call.frame + AT_FOUND, 0);
    uint32_t answer = w2c_tcp_c_peer(M, AT_HANDLE, AT_DST, AT_FOUND);
    get_addr(&call, addr);
    *port = get16(call.frame + AT_FOUND);
    end_with(&call, handle);
    return answer;
}

static uint32_t tcp_c_status(struct handle *handle, struct tcpcore_status *status)
{
    WITH_END(handle);
    carry_record(call.frame + AT_RECORD, status, OF_STATUS);
    uint32_t answer = w2c_tcp_c_status(M, AT_HANDLE, AT_RECORD);
    carry_record(status, call.frame + AT_RECORD, OF_STATUS);
    end_with(&call, handle);
    return answer;
}
