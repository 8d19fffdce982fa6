
/* Connections: their calls by the module's, as those of ends. */

/* crates/tcp_c: the mark of a handle that holds a connection, and how many bytes of the block it takes from its address on. */
#define MARK_OF_CONNECTION UINT64_C(0x764350526174746c)
#define CONNECTION_SIZE 1200
#define CONNECTION_MARK UINT32_C(0x70636f6e)

static const u8 OF_CONNECTION_RULES[] = {8, 8, 8, 8, 8, 8, 8, 8, 8, 4, 4, 0};
static const u8 OF_CONNECTION_SEGMENT[] = {8, 8, 8, 1, 1, 1, 1, 0};
static const u8 OF_CONGESTION[] = {8, 8, 8, 4, 4, 0};
static const u8 OF_POLICY[] = {8, 8, 8, 4, 0};
static const u8 OF_KEEP_ALIVE[] = {8, 8, 4, 0};

/* Where the memory of a connection's recovery lies: in the unit before the block that the module knows. `at` is NULL where it has none. */
struct recovery {
    void *at;
    u32 size;
};

HOLDS(sizeof(struct recovery) <= UNIT);

STEP struct recovery recovery_before(const void *block)
{
    struct recovery found;
    memcpy(&found, (const u8 *)block - UNIT, sizeof found);
    return found;
}

STEP void put_recovery(void *block, struct recovery recovery) { memcpy((u8 *)block - UNIT, &recovery, sizeof recovery); }

/* With the connection in the handle, if there is one, and with its recovery. */
STEP void begin_connection(struct call *call, const struct handle *handle)
{
    begin_as(call, handle, CONNECTION_MARK, MARK_OF_CONNECTION, CONNECTION_SIZE);
    if (get64(call->frame + AT_HANDLE) == MARK_OF_CONNECTION) {
        struct recovery recovery = recovery_before(call->machine.w2c_memory.read[IN_BLOCK].data);
        see(call, IN_RECOVERY, recovery.at, recovery.size);
    }
}

#define WITH_CONNECTION(handle) \
    struct call call; \
    begin_connection(&call, handle)
#define END_OF_CONNECTION(handle) end_as(&call, handle, CONNECTION_MARK, MARK_OF_CONNECTION)
#define ANSWER_OF_CONNECTION(handle, made) \
    uint32_t answer = made; \
    END_OF_CONNECTION(handle); \
    return answer

/* What a connection is made from. */
STEP void put_making(struct call *call, struct block block, const tcpcore_config *config, const struct tcpcore_connection_rules *rules)
{
    if (get64(call->frame + AT_HANDLE) != MARK_OF_CONNECTION && block.size > 0) {
        see(call, IN_BLOCK, block.at, block.size);
        put_recovery(block.at, (struct recovery){NULL, 0});
    }
    carry_record(call->frame + AT_RECORD, config, OF_CONFIG);
    carry_record(call->frame + AT_RULES, rules, OF_CONNECTION_RULES);
    put64(call->frame + AT_BLOCK, WINDOW(IN_BLOCK));
    put64(call->frame + AT_BLOCK + 8, length_of(block.size) / UNIT * UNIT);
}

static uint32_t tcp_c_connection_connect(struct handle *handle, struct block block, const tcpcore_config *config,
                                         const struct tcpcore_connection_rules *rules, const tcpcore_addr *addr, uint16_t port,
                                         uint64_t now)
{
    WITH_CONNECTION(handle);
    put_making(&call, block, config, rules);
    put_addr(&call, AT_DST, addr);
    ANSWER_OF_CONNECTION(handle, w2c_tcp_c_connection_connect(M, AT_HANDLE, AT_BLOCK, AT_RECORD, AT_RULES, AT_DST, port, now));
}

static uint32_t tcp_c_connection_listen(struct handle *handle, struct block block, const tcpcore_config *config,
                                        const struct tcpcore_connection_rules *rules, uint64_t now)
{
    WITH_CONNECTION(handle);
    put_making(&call, block, config, rules);
    ANSWER_OF_CONNECTION(handle, w2c_tcp_c_connection_listen(M, AT_HANDLE, AT_BLOCK, AT_RECORD, AT_RULES, now));
}

static size_t tcp_c_connection_room(const tcpcore_config *config)
{
    struct call call;
    begin(&call);
    carry_record(call.frame + AT_RECORD, config, OF_CONFIG);
    return (size_t)w2c_tcp_c_connection_room(M, AT_RECORD);
}

static uint32_t tcp_c_connection_free(struct handle *handle)
{
    WITH_CONNECTION(handle);
    ANSWER_OF_CONNECTION(handle, w2c_tcp_c_connection_free(M, AT_HANDLE));
}

static uint32_t tcp_c_connection_poll_at(struct handle *handle, uint64_t *at)
{
    WITH_CONNECTION(handle);
    put64(call.frame + AT_FOUND, 0);
    uint32_t answer = w2c_tcp_c_connection_poll_at(M, AT_HANDLE, AT_FOUND);
    *at = get64(call.frame + AT_FOUND);
    END_OF_CONNECTION(handle);
    return answer;
}

static uint32_t tcp_c_connection_timeout(struct handle *handle, uint64_t now, uint32_t *timer)
{
    WITH_CONNECTION(handle);
    put32(call.frame + AT_FOUND, 0);
    uint32_t answer = w2c_tcp_c_connection_timeout(M, AT_HANDLE, now, AT_FOUND);
    *timer = get32(call.frame + AT_FOUND);
    END_OF_CONNECTION(handle);
    return answer;
}

static uint32_t tcp_c_connection_tick(struct handle *handle, uint64_t now, uint32_t *timer, uint64_t *next)
{
    WITH_CONNECTION(handle);
    put32(call.frame + AT_FOUND, 0);
    put64(call.frame + AT_RECORD, 0);
    uint32_t answer = w2c_tcp_c_connection_tick(M, AT_HANDLE, now, AT_FOUND, AT_RECORD);
    *timer = get32(call.frame + AT_FOUND);
    *next = get64(call.frame + AT_RECORD);
    END_OF_CONNECTION(handle);
    return answer;
}

static uint32_t tcp_c_connection_arrive(struct handle *handle, uint64_t now, const tcpcore_addr *src, const tcpcore_addr *dst,
                                        const uint8_t *bytes, size_t length, struct tcpcore_arrive_report *taken)
{
    WITH_CONNECTION(handle);
    put_segment(&call, src, dst, bytes, length);
    carry_record(call.frame + AT_RECORD, taken, OF_ARRIVE_REPORT);
    uint32_t answer = w2c_tcp_c_connection_arrive(M, AT_HANDLE, now, AT_SRC, AT_DST, WINDOW(IN_READ), length_of(length), AT_RECORD);
    carry_record(taken, call.frame + AT_RECORD, OF_ARRIVE_REPORT);
    END_OF_CONNECTION(handle);
    return answer;
}

static uint32_t tcp_c_connection_arrive_vouched(struct handle *handle, uint64_t now, const tcpcore_addr *src, const tcpcore_addr *dst,
                                                const uint8_t *bytes, size_t length, struct tcpcore_arrive_report *taken)
{
    WITH_CONNECTION(handle);
    put_segment(&call, src, dst, bytes, length);
    carry_record(call.frame + AT_RECORD, taken, OF_ARRIVE_REPORT);
    uint32_t answer = w2c_tcp_c_connection_arrive_vouched(M, AT_HANDLE, now, AT_SRC, AT_DST, WINDOW(IN_READ), length_of(length), AT_RECORD);
    carry_record(taken, call.frame + AT_RECORD, OF_ARRIVE_REPORT);
    END_OF_CONNECTION(handle);
    return answer;
}

static uint32_t tcp_c_connection_emit(struct handle *handle, uint64_t now, uint64_t window, uint8_t *out, size_t room,
                                      struct tcpcore_connection_segment *segment)
{
    WITH_CONNECTION(handle);
    see(&call, IN_BUFFER, out, room);
    carry_record(call.frame + AT_RECORD, segment, OF_CONNECTION_SEGMENT);
    uint32_t answer = w2c_tcp_c_connection_emit(M, AT_HANDLE, now, window, WINDOW(IN_BUFFER), length_of(room), AT_RECORD);
    carry_record(segment, call.frame + AT_RECORD, OF_CONNECTION_SEGMENT);
    END_OF_CONNECTION(handle);
    return answer;
}

static uint32_t tcp_c_connection_emit_train(struct handle *handle, uint64_t now, uint64_t window, uint8_t *out, size_t room, size_t most,
                                            struct train *train)
{
    WITH_CONNECTION(handle);
    see(&call, IN_BUFFER, out, room);
    carry_record(call.frame + AT_RECORD, train, OF_TRAIN);
    uint32_t answer = w2c_tcp_c_connection_emit_train(M, AT_HANDLE, now, window, WINDOW(IN_BUFFER), length_of(room), most, AT_RECORD);
    carry_record(train, call.frame + AT_RECORD, OF_TRAIN);
    END_OF_CONNECTION(handle);
    return answer;
}

static uint32_t tcp_c_connection_send(struct handle *handle, uint64_t now, const uint8_t *text, size_t length, size_t *taken)
{
    WITH_CONNECTION(handle);
    see_read(&call, text, length);
    put64(call.frame + AT_FOUND, 0);
    uint32_t answer = w2c_tcp_c_connection_send(M, AT_HANDLE, now, WINDOW(IN_READ), length_of(length), AT_FOUND);
    *taken = (size_t)get64(call.frame + AT_FOUND);
    END_OF_CONNECTION(handle);
    return answer;
}

static uint32_t tcp_c_connection_receive(struct handle *handle, uint64_t now, uint8_t *out, size_t room, size_t *count)
{
    WITH_CONNECTION(handle);
    see(&call, IN_BUFFER, out, room);
    put64(call.frame + AT_FOUND, 0);
    uint32_t answer = w2c_tcp_c_connection_receive(M, AT_HANDLE, now, WINDOW(IN_BUFFER), length_of(room), AT_FOUND);
    *count = (size_t)get64(call.frame + AT_FOUND);
    END_OF_CONNECTION(handle);
    return answer;
}

static uint32_t tcp_c_connection_peek(struct handle *handle, struct lent *lent)
{
    WITH_CONNECTION(handle);
    carry_record(call.frame + AT_RECORD, lent, OF_LENT);
    uint32_t answer = w2c_tcp_c_connection_peek(M, AT_HANDLE, AT_RECORD);
    carry_record(lent, call.frame + AT_RECORD, OF_LENT);
    lent->first = lent_at(&call, lent->first);
    lent->second = lent_at(&call, lent->second);
    END_OF_CONNECTION(handle);
    return answer;
}

static uint32_t tcp_c_connection_consume(struct handle *handle, uint64_t now, size_t count, size_t *taken)
{
    WITH_CONNECTION(handle);
    put64(call.frame + AT_FOUND, 0);
    uint32_t answer = w2c_tcp_c_connection_consume(M, AT_HANDLE, now, count, AT_FOUND);
    *taken = (size_t)get64(call.frame + AT_FOUND);
    END_OF_CONNECTION(handle);
    return answer;
}

static uint32_t tcp_c_connection_acknowledge(struct handle *handle, uint64_t now)
{
    WITH_CONNECTION(handle);
    ANSWER_OF_CONNECTION(handle, w2c_tcp_c_connection_acknowledge(M, AT_HANDLE, now));
}

static uint32_t tcp_c_connection_close(struct handle *handle, uint64_t now)
{
    WITH_CONNECTION(handle);
    ANSWER_OF_CONNECTION(handle, w2c_tcp_c_connection_close(M, AT_HANDLE, now));
}

static uint32_t tcp_c_connection_abort(struct handle *handle, uint64_t now)
{
    WITH_CONNECTION(handle);
    ANSWER_OF_CONNECTION(handle, w2c_tcp_c_connection_abort(M, AT_HANDLE, now));
}

static uint32_t tcp_c_connection_status(struct handle *handle, struct tcpcore_status *status)
{
    WITH_CONNECTION(handle);
    carry_record(call.frame + AT_RECORD, status, OF_STATUS);
    uint32_t answer = w2c_tcp_c_connection_status(M, AT_HANDLE, AT_RECORD);
    carry_record(status, call.frame + AT_RECORD, OF_STATUS);
    END_OF_CONNECTION(handle);
    return answer;
}

static uint32_t tcp_c_connection_peer(struct handle *handle, tcpcore_addr *addr, uint16_t *port)
{
    WITH_CONNECTION(handle);
    put_addr(&call, AT_DST, addr);
    put16(call.frame + AT_FOUND, 0);
    uint32_t answer = w2c_tcp_c_connection_peer(M, AT_HANDLE, AT_DST, AT_FOUND);
    get_addr(&call, addr);
    *port = get16(call.frame + AT_FOUND);
    END_OF_CONNECTION(handle);
    return answer;
}

static uint32_t tcp_c_connection_set_user_timeout(struct handle *handle, uint64_t limit)
{
    WITH_CONNECTION(handle);
    ANSWER_OF_CONNECTION(handle, w2c_tcp_c_connection_set_user_timeout(M, AT_HANDLE, limit));
}

static uint32_t tcp_c_connection_resend_first(struct handle *handle, uint64_t now)
{
    WITH_CONNECTION(handle);
    ANSWER_OF_CONNECTION(handle, w2c_tcp_c_connection_resend_first(M, AT_HANDLE, now));
}

static uint32_t tcp_c_connection_resend(struct handle *handle, uint64_t now, uint64_t from, uint64_t to)
{
    WITH_CONNECTION(handle);
    ANSWER_OF_CONNECTION(handle, w2c_tcp_c_connection_resend(M, AT_HANDLE, now, from, to));
}

static uint32_t tcp_c_connection_set_congestion(struct handle *handle, uint32_t congestion)
{
    WITH_CONNECTION(handle);
    ANSWER_OF_CONNECTION(handle, w2c_tcp_c_connection_set_congestion(M, AT_HANDLE, congestion));
}

static uint32_t tcp_c_connection_congestion(struct handle *handle, struct tcpcore_congestion *congestion)
{
    WITH_CONNECTION(handle);
    carry_record(call.frame + AT_RECORD, congestion, OF_CONGESTION);
    uint32_t answer = w2c_tcp_c_connection_congestion(M, AT_HANDLE, AT_RECORD);
    carry_record(congestion, call.frame + AT_RECORD, OF_CONGESTION);
    END_OF_CONNECTION(handle);
    return answer;
}

static uint32_t tcp_c_connection_set_policy(struct handle *handle, const struct tcpcore_policy *policy)
{
    WITH_CONNECTION(handle);
    carry_record(call.frame + AT_RECORD, policy, OF_POLICY);
    ANSWER_OF_CONNECTION(handle, w2c_tcp_c_connection_set_policy(M, AT_HANDLE, AT_RECORD));
}

static uint32_t tcp_c_connection_set_keep_alive(struct handle *handle, const struct tcpcore_keep_alive *rules, uint64_t now)
{
    WITH_CONNECTION(handle);
    carry_record(call.frame + AT_RECORD, rules, OF_KEEP_ALIVE);
    ANSWER_OF_CONNECTION(handle, w2c_tcp_c_connection_set_keep_alive(M, AT_HANDLE, AT_RECORD, now));
}

static uint32_t tcp_c_connection_set_pacing(struct handle *handle, uint32_t is_paced)
{
    WITH_CONNECTION(handle);
    ANSWER_OF_CONNECTION(handle, w2c_tcp_c_connection_set_pacing(M, AT_HANDLE, is_paced));
}

static uint32_t tcp_c_connection_set_recovery(struct handle *handle, struct block block, uint64_t now)
{
    WITH_CONNECTION(handle);
    /* One that has a recovery refuses another, whose block it doesn't look at. */
    int has_none = call.machine.w2c_memory.read[IN_RECOVERY].size == 0;
    if (has_none)
        see(&call, IN_RECOVERY, block.at, block.size);
    put64(call.frame + AT_BLOCK, WINDOW(IN_RECOVERY));
    put64(call.frame + AT_BLOCK + 8, length_of(block.size) / UNIT * UNIT);
    uint32_t answer = w2c_tcp_c_connection_set_recovery(M, AT_HANDLE, AT_BLOCK, now);
    if (answer == TCPCORE_DONE && has_none)
        put_recovery(call.machine.w2c_memory.read[IN_BLOCK].data, (struct recovery){block.at, (u32)length_of(block.size)});
    END_OF_CONNECTION(handle);
    return answer;
}
