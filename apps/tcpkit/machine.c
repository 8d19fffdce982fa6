/* What the module's functions name beside memory.c. */
#define I32_ROTL(x, y) ((x) << ((y) & 31) | (x) >> ((32 - (y)) & 31))
#define I64_ROTL(x, y) ((x) << ((y) & 63) | (x) >> ((64 - (y)) & 63))
#define I64_CLZ(x) leading_zeros(x)
#define I64_CTZ(x) trailing_zeros(x)

/* How many bits come before the highest one that is set: 64 where none is. It is called with small numbers. */
static inline u64 leading_zeros(u64 x)
{
    u64 count = 64;
    for (; x; x >>= 1)
        count--;
    return count;
}

/* How many come behind the lowest one that is set. */
static inline u64 trailing_zeros(u64 x)
{
    u64 count = 0;
    while (count < 64 && !(x >> count & 1))
        count++;
    return count;
}

static inline u32 i32_load8_s(const Memory *memory, u64 address)
{
    u32 byte = get8(read_place(memory, (u32)address, 1));
    return byte < 128 ? byte : byte | UINT32_C(0xffffff00);
}

