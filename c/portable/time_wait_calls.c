
/* TIME-WAIT records: what an end leaves behind, by the calls of the module. */
static uint32_t tcp_c_time_wait(struct handle *handle, struct tcpcore_time_wait *time_wait)
{
    WITH_END(handle);
    carry_record(call.frame + AT_RECORD, time_wait, OF_TIME_WAIT);
    uint32_t answer = w2c_tcp_c_time_wait(M, AT_HANDLE, AT_RECORD);
    carry_record(time_wait, call.frame + AT_RECORD, OF_TIME_WAIT);
    end_with(&call, handle);
    return answer;
}

/* A call of the module with the TIME-WAIT record of a struct. */
#define WITH_TIME_WAIT(time_wait) \
    struct call call; \
    begin(&call); \
    carry_record(call.frame + AT_RECORD, time_wait, OF_TIME_WAIT)
#define ANSWER_OF_TIME_WAIT(time_wait, made) \
    uint32_t answer = made; \
    carry_record(time_wait, call.frame + AT_RECORD, OF_TIME_WAIT); \
    return answer

static uint32_t tcp_c_time_wait_arrive(struct tcpcore_time_wait *time_wait, const tcpcore_addr *src, const tcpcore_addr *dst,
                                       const uint8_t *bytes, size_t length)
{
    WITH_TIME_WAIT(time_wait);
    put_segment(&call, src, dst, bytes, length);
    ANSWER_OF_TIME_WAIT(time_wait, w2c_tcp_c_time_wait_arrive(M, AT_RECORD, AT_SRC, AT_DST, WINDOW(IN_READ), length_of(length)));
}

static uint32_t tcp_c_time_wait_timer(struct tcpcore_time_wait *time_wait, uint32_t timer)
{
    WITH_TIME_WAIT(time_wait);
    ANSWER_OF_TIME_WAIT(time_wait, w2c_tcp_c_time_wait_timer(M, AT_RECORD, timer));
}

static uint32_t tcp_c_time_wait_emit(struct tcpcore_time_wait *time_wait, uint8_t *out, size_t room, tcpcore_addr *to,
                                     size_t *length)
{
    WITH_TIME_WAIT(time_wait);
    put_written(&call, to, out, room);
    uint32_t answer = w2c_tcp_c_time_wait_emit(M, AT_RECORD, WINDOW(IN_WRITTEN), length_of(room), AT_DST, AT_FOUND);
    get_written(&call, to, length);
    carry_record(time_wait, call.frame + AT_RECORD, OF_TIME_WAIT);
    return answer;
}

static uint32_t tcp_c_time_wait_pending(const struct tcpcore_time_wait *time_wait, uint32_t *due)
{
    WITH_TIME_WAIT(time_wait);
    put32(call.frame + AT_FOUND, 0);
    uint32_t answer = w2c_tcp_c_time_wait_pending(M, AT_RECORD, AT_FOUND);
    *due = get32(call.frame + AT_FOUND);
    return answer;
}

static uint32_t tcp_c_time_wait_abort(struct tcpcore_time_wait *time_wait)
{
    WITH_TIME_WAIT(time_wait);
    ANSWER_OF_TIME_WAIT(time_wait, w2c_tcp_c_time_wait_abort(M, AT_RECORD));
}

static uint32_t tcp_c_time_wait_status(const struct tcpcore_time_wait *time_wait, uint32_t *phase, uint32_t *ending)
{
    WITH_TIME_WAIT(time_wait);
    put32(call.frame + AT_FOUND, 0);
    put32(call.frame + AT_OTHER, 0);
    uint32_t answer = w2c_tcp_c_time_wait_status(M, AT_RECORD, AT_FOUND, AT_OTHER);
    *phase = get32(call.frame + AT_FOUND);
    *ending = get32(call.frame + AT_OTHER);
    return answer;
}
