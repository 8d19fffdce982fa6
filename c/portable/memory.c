/*
 * THE MACHINE that the functions below run on: wasm2c's, with a memory of four windows in the place of one block. Nothing of it is
 * global: it stands on C's stack for the time of a call. An address of the module is a window's number, in its two highest bits,
 * and a place there:
 *   0  what stands on C's stack: the module's own stack, and the records that a call is made with;
 *   1  the end's block;
 *   2  a buffer that is read: text to send, a segment that has come;
 *   3  a buffer that is written: room for text or for a segment.
 * A call of a connection has one buffer, which is seen through window 2 whether it is read or written, and through 3 the memory of the
 * connection's recovery. Each access tests that it lies in its window, and a store that it isn't in a buffer that is read. With
 * TCPCORE_UNCHECKED none does: then nothing but the proof and the translators keep the code within its memory.
 * The module's constants, TABLE, if it has any, are at TABLE_AT of window 0, behind all else there, and are only read.
 */
typedef uint8_t u8;
typedef uint16_t u16;
typedef uint32_t u32;
typedef uint64_t u64;
typedef int8_t s8;
typedef int32_t s32;
typedef int64_t s64;

enum { WINDOWS = 4, IN_STACK = 0, IN_BLOCK = 1, IN_READ = 2, IN_WRITTEN = 3, IN_BUFFER = IN_READ, IN_RECOVERY = IN_WRITTEN };

#define WINDOW(number) ((u32)(number) << 30)
#define PLACE UINT32_C(0x3fffffff)

struct window {
    u8 *data;
    u32 size;
};

typedef struct {
    struct window read[WINDOWS], written[WINDOWS];
} Memory;

typedef struct {
    u64 w2c___stack_pointer;
    u32 w2c_in_call;
    Memory w2c_memory;
} Machine;

/* What a test that fails does: it never comes back. */
#ifndef TCPCORE_STOP
#define TCPCORE_STOP() ((void)0)
#endif
static void stop(void)
{
    TCPCORE_STOP();
    for (;;) {
    }
}

/* Where `size` bytes at an address lie that are written: at most PLACE of them. */
STEP u8 *place(const Memory *memory, u32 address, u32 size)
{
    const struct window *window = memory->written + (address >> 30);
    u32 at = address & PLACE;
#ifdef TCPCORE_UNCHECKED
    (void)size;
#else
    if (at + size > window->size)
        stop();
#endif
    return window->data + at;
}

/* Constants of the module; where there are none it stops. */
#if !defined(TCPCORE_UNCHECKED) || TABLE_SIZE > 0
static inline const u8 *constant(u32 address, u32 size)
{
#if TABLE_SIZE > 0
    if (address >= TABLE_AT && address - TABLE_AT <= TABLE_SIZE && size <= TABLE_SIZE - (address - TABLE_AT))
        return TABLE + (address - TABLE_AT);
#else
    (void)address, (void)size;
#endif
    stop();
    return NULL;
}
#endif

/* The same of bytes that are read. */
STEP const u8 *read_place(const Memory *memory, u32 address, u32 size)
{
    const struct window *window = memory->read + (address >> 30);
    u32 at = address & PLACE;
#ifndef TCPCORE_UNCHECKED
    if (at + size > window->size)
        return constant(address, size);
#elif TABLE_SIZE > 0
    if (address >= TABLE_AT && address < WINDOW(1))
        return constant(address, size);
#endif
    return window->data + at;
}

/* The module's memory is little-endian on any machine, and at any alignment. */
#if defined(__BYTE_ORDER__) && defined(__ORDER_LITTLE_ENDIAN__) && __BYTE_ORDER__ == __ORDER_LITTLE_ENDIAN__
#define GET(T) \
    T value; \
    memcpy(&value, from, sizeof value); \
    return value
#define PUT(T) memcpy(to, &value, sizeof(T))
#define IS_REVERSED 0
#else
#define GET(T) \
    u64 value = 0; \
    for (unsigned i = sizeof(T); i-- > 0;) \
        value = value << 8 | from[i]; \
    return (T)value
#define PUT(T) \
    for (unsigned i = 0; i < sizeof(T); i++) \
        to[i] = (u8)((u64)value >> 8 * i)
#define IS_REVERSED 1
#endif

static inline u8 get8(const u8 *from) { return *from; }
static inline u16 get16(const u8 *from) { GET(u16); }
static inline u32 get32(const u8 *from) { GET(u32); }
static inline u64 get64(const u8 *from) { GET(u64); }
static inline void put8(u8 *to, u8 value) { *to = value; }
static inline void put16(u8 *to, u16 value) { PUT(u16); }
static inline void put32(u8 *to, u32 value) { PUT(u32); }
static inline void put64(u8 *to, u64 value) { PUT(u64); }

#define LOAD(name, R, bits) \
    STEP R name(const Memory *memory, u64 address) \
    { \
        return get##bits(read_place(memory, (u32)address, bits / 8)); \
    }
#define STORE(name, V, bits) \
    STEP void name(const Memory *memory, u64 address, V value) \
    { \
        put##bits(place(memory, (u32)address, bits / 8), (u##bits)value); \
    }
LOAD(i32_load, u32, 32)
LOAD(i32_load16_u, u32, 16)
LOAD(i32_load8_u, u32, 8)
LOAD(i64_load, u64, 64)
LOAD(i64_load32_u, u64, 32)
LOAD(i64_load16_u, u64, 16)
LOAD(i64_load8_u, u64, 8)
STORE(i32_store, u32, 32)
STORE(i32_store16, u32, 16)
STORE(i32_store8, u32, 8)
STORE(i64_store, u64, 64)
STORE(i64_store32, u64, 32)
STORE(i64_store16, u64, 16)
STORE(i64_store8, u64, 8)

static inline void memory_copy(const Memory *to, const Memory *from, u32 destination, u32 source, u32 count)
{
    if (count > PLACE)
        stop();
    u8 *at = place(to, destination, count);
    const u8 *there = read_place(from, source, count);
    if (count > 0)
        memmove(at, there, count);
}

static inline void memory_fill(const Memory *memory, u32 destination, u32 value, u32 count)
{
    if (count > PLACE)
        stop();
    u8 *at = place(memory, destination, count);
    if (count > 0)
        memset(at, (int)(value & 255), count);
}

/*
 * Of a loop that copies four bytes a turn, `left` bytes in all: does each turn but the last at once, and answers how many bytes these
 * are; 0 where it does none: where a turn would stop, or would read what another one has written.
 */
static inline u64 copied_ahead(const Memory *memory, u64 destination, u64 source, u64 left)
{
    u32 to = (u32)destination, from = (u32)source;
    const struct window *there = memory->written + (to >> 30), *here = memory->read + (from >> 30);
    if (left < 8 || left > PLACE || left % 4 != 0)
        return 0;
    u32 count = (u32)left - 4;
    int is_apart = to >> 30 != from >> 30 || (to > from ? to - from : from - to) >= count;
    to &= PLACE, from &= PLACE;
    if (!is_apart || to + count > there->size || from + count > here->size)
        return 0;
    memmove(there->data + to, here->data + from, count);
    return count;
}

/*
 * What turns of a loop add that sums words of 16 bits: LANES words a turn, side by side, each to a sum of its own, and each one's high
 * byte to another. There are so few turns that no sum of bytes is longer than 16 bits, so that four of them lie in a word of 64.
 */
enum { LANES = 16, TURN = 2 * LANES, MOST_TURNS = 256 };
#define HIGHS UINT64_C(0x00ff00ff00ff00ff)

struct sums {
    u64 length, lows[LANES / 4], highs[LANES / 4];
};

/* A function that isn't compiled into what calls it, so that its loop is made for the processor's vectors. */
#ifdef __GNUC__
#define APART __attribute__((noinline))
#else
#define APART
#endif

static inline u32 high_of(const struct sums *sums, int lane) { return (u16)(sums->highs[lane / 4] >> lane % 4 * 16); }

static inline u32 word_of(const struct sums *sums, int lane)
{
    return (u16)(sums->lows[lane / 4] >> lane % 4 * 16) + (high_of(sums, lane) << 8);
}

/*
 * Of such a loop, `left` bytes in all: what all its turns but the last add, or its first MOST_TURNS, and how many bytes these are; 0 where
 * one would stop. What four words add up to is less the 256fold of their high bytes what their low ones add up to.
 */
static APART struct sums summed_ahead(const Memory *memory, u64 source, u64 left)
{
    struct sums sums = {0, {0}, {0}};
    u32 from = (u32)source, turns = left > MOST_TURNS * TURN ? MOST_TURNS : (u32)left / TURN - 1;
    const struct window *here = memory->read + (from >> 30);
    from &= PLACE;
    if (left < 2 * TURN || from + turns * TURN > here->size)
        return sums;
    const u8 *at = here->data + from;
    for (u32 turn = 0; turn < turns; turn++, at += TURN) {
        u64 one = get64(at), two = get64(at + 8), three = get64(at + 16), four = get64(at + 24);
        sums.lows[0] += one, sums.highs[0] += one >> 8 & HIGHS;
        sums.lows[1] += two, sums.highs[1] += two >> 8 & HIGHS;
        sums.lows[2] += three, sums.highs[2] += three >> 8 & HIGHS;
        sums.lows[3] += four, sums.highs[3] += four >> 8 & HIGHS;
    }
    for (int i = 0; i < LANES / 4; i++)
        sums.lows[i] -= sums.highs[i] << 8;
    sums.length = turns * TURN;
    return sums;
}

static inline u32 remainder_of(u32 value, u32 by)
{
    if (by == 0)
        stop();
    return value % by;
}

/* Of 64 bits: bit by bit where a value is longer than 32, since a small processor has no such division, nor has every linker. */
static inline u64 quotient_of(u64 value, u64 by)
{
    u64 quotient = 0, rest = 0;
    if (by == 0)
        stop();
    if ((value | by) >> 32 == 0)
        return (u32)value / (u32)by;
    for (int step = 0; step < 64; step++) {
        int is_long = rest >> 63 != 0;
        rest = rest << 1 | value >> 63;
        value <<= 1, quotient <<= 1;
        if (is_long || rest >= by)
            rest -= by, quotient |= 1;
    }
    return quotient;
}

#define UNREACHABLE stop()
#define REM_U(x, y) remainder_of(x, y)
#define DIV_U(x, y) quotient_of(x, y)
#define I32_ROTR(x, y) ((x) >> ((y) & 31) | (x) << ((32 - (y)) & 31))
