/*
 * A call of the module in C. Its memory is one piece: its stack and its data, the records of the call, a word of at most 64 bytes,
 * the input, room for what is written, and the block that the call works in.
 */
enum { AT_BLOCK = (HEAP_BASE + 15) / 16 * 16, AT_COUNT = AT_BLOCK + 16, AT_LINE = AT_COUNT + 8, AT_WORD = AT_LINE + 8, AT_INPUT = AT_WORD + 64 };

struct work {
    Machine machine;
    u8 *memory;
    u32 length, out, room;
    /* What the call has found. */
    const u8 *text;
    size_t count;
    u64 line;
};

/* What a call is made with, and what it finds: how much is written, and the number of a bad line. */
#define MODULE(name) w2c_tcp_web_##name
#define BLOCK(work) &(work)->machine, AT_BLOCK
#define INPUT(work) AT_INPUT, (work)->length
#define WORD(work, word) (memcpy((work)->memory + AT_WORD, word, strlen(word)), AT_WORD), strlen(word)
#define OUTPUT(work) (work)->out, (work)->room
#define COUNT(work) AT_COUNT
#define LINE(work) AT_LINE

/* The size of the memory for the first try with an input of this length, and after one of a size that was too little; 0 where there is
   none. An address has no more than a window's place. */
static size_t size_after(size_t size, size_t length)
{
    size_t next = size > 0 ? size * 2 : (size_t)1 << 26;
    while (next / 4 <= length && next > 0 && next <= (size_t)1 << 29)
        next *= 2;
    return next <= (size_t)1 << 29 ? next : 0;
}

/* Makes ready for a call over a new memory of this size, in which the input has room; whether there is that memory. */
static int begin(struct work *work, const u8 *input, size_t length, const size_t *size)
{
    u8 *memory = calloc(1, *size);
    if (!memory)
        return 0;
    memset(work, 0, sizeof *work);
    work->memory = memory, work->length = (u32)length;
    work->out = (AT_INPUT + (u32)length) / 16 * 16 + 16, work->room = ((u32)*size - work->out) / 32 * 16;
    work->machine.w2c_memory.read[0] = work->machine.w2c_memory.written[0] = (struct window){memory, (u32)*size};
    work->machine.w2c___stack_pointer = STACK;
    memcpy(memory + AT_DATA, DATA, sizeof DATA);
    if (length > 0)
        memcpy(memory + AT_INPUT, input, length);
    put64(memory + AT_BLOCK, work->out + work->room);
    put64(memory + AT_BLOCK + 8, work->room);
    return 1;
}

static void look(struct work *work)
{
    work->text = work->memory + work->out;
    work->count = (size_t)get64(work->memory + AT_COUNT), work->line = get64(work->memory + AT_LINE);
}

static void end(struct work *work) { free(work->memory); }

