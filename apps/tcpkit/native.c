/* A call of the module as machine code, over two pieces of memory: room for what is written, and the block that the call works in. */
typedef uint8_t u8;
typedef uint32_t u32;
typedef uint64_t u64;

struct block {
    void *at;
    size_t size;
};

#define CODE extern __attribute__((visibility("hidden")))
CODE u32 tcp_web_replay(struct block, const u8 *script, size_t, u8 *out, size_t, size_t *count);
CODE u32 tcp_web_list(struct block, const u8 *list, size_t, u8 *out, size_t, size_t *count, size_t *line);
CODE u32 tcp_web_judge(struct block, const u8 *log, size_t, u32 is_complete, u32 is_first, u8 *out, size_t, size_t *count, size_t *line);
CODE u32 tcp_web_capture(struct block, const u8 *file, size_t, const u8 *at, size_t, u32 is_json, u32 is_painted, u8 *out, size_t, size_t *count);

struct work {
    const u8 *input;
    u8 *memory;
    size_t length, room;
    /* What the call has found. */
    const u8 *text;
    size_t count, line;
};

/* What a call is made with, and what it finds: how much is written, and the number of a bad line. */
#define MODULE(name) tcp_web_##name
#define BLOCK(work) ((struct block){(work)->memory + (work)->room, (work)->room})
#define INPUT(work) (work)->input, (work)->length
#define WORD(work, word) (const u8 *)(word), strlen(word)
#define OUTPUT(work) (work)->memory, (work)->room
#define COUNT(work) &(work)->count
#define LINE(work) &(work)->line

/*
 * The size of the memory for the first try with an input of this length, and after one of a size that was too little; 0 where there is
 * none. The first is far more than most inputs want: a page that nothing is written to is none of the machine's.
 */
enum { MOST_OFTEN = 128 };
static size_t size_after(size_t size, size_t length)
{
    if (size > SIZE_MAX / 2 || length > SIZE_MAX / 2 / MOST_OFTEN)
        return 0;
    return size > 0 ? size * 2 : ((size_t)1 << 26) + length * MOST_OFTEN;
}

/* Makes ready for a call with memory of this size, or of as much as the system gives by halves of it; whether that can be enough. */
static int begin(struct work *work, const u8 *input, size_t length, size_t *size)
{
    u8 *memory = malloc(*size);
    while (!memory && *size / 4 > length && *size > 1 << 20) {
        *size /= 2;
        memory = malloc(*size);
    }
    /* An empty input lies somewhere. */
    *work = (struct work){length > 0 ? input : memory, memory, length, *size / 32 * 16, memory, 0, 0};
    return memory != NULL;
}

static void look(struct work *work) { (void)work; }

static void end(struct work *work) { free(work->memory); }

