/* What the programs share around the module's calls: words, a file's bytes, and what becomes of an answer. PROGRAM is the program's name. */
enum { STATUS_OF_FAULT = 2, WELL = 0, REFUSED = 1, FAULT = 2, LITTLE_MEMORY = 3, LITTLE_ROOM = 4 };
enum { WORDS = 40, BAD_LINE = 41, NO_MEMORY = 42, NO_INPUT = 43, NO_OUTPUT = 44 };

/* A text that grows. */
struct text {
    u8 *bytes;
    size_t length, room;
};

static int fault(int number)
{
    fprintf(stderr, PROGRAM ": %d\n", number);
    return STATUS_OF_FAULT;
}

/* How many bytes the character of UTF-8 at a place has, 0 where there is none. */
static size_t length_of_character(const u8 *at)
{
    size_t length = at[0] < 0x80 ? 1 : at[0] < 0xc2 ? 0 : at[0] < 0xe0 ? 2 : at[0] < 0xf0 ? 3 : at[0] < 0xf5 ? 4 : 0;
    for (size_t i = 1; i < length; i++)
        if ((at[i] & 0xc0) != 0x80)
            return 0;
    int is_wrong = (at[0] == 0xe0 && at[1] < 0xa0) || (at[0] == 0xed && at[1] > 0x9f) || (at[0] == 0xf0 && at[1] < 0x90)
                   || (at[0] == 0xf4 && at[1] > 0x8f);
    return is_wrong ? 0 : length;
}

static int is_text(const char *word)
{
    const u8 *at = (const u8 *)word;
    while (*at) {
        size_t length = length_of_character(at);
        if (length == 0)
            return 0;
        at += length;
    }
    return 1;
}

/* Whether all words are texts. */
static int are_texts(int count, char **words)
{
    for (int i = 0; i < count; i++)
        if (!is_text(words[i]))
            return 0;
    return 1;
}

/* No option: it begins with no hyphen, or nothing follows that. */
static int is_plain(const char *word) { return word[0] != '-' || word[1] == 0; }

/* Reads an open file to its end and closes it; 0, or the fault's number. */
static int read_all(FILE *file, struct text *text)
{
    size_t count = 1;
    if (!file)
        return NO_INPUT;
    while (count > 0) {
        if (text->length == text->room) {
            size_t room = text->room * 2 + 4096;
            u8 *bytes = realloc(text->bytes, room);
            if (!bytes) {
                fclose(file);
                return NO_MEMORY;
            }
            text->bytes = bytes, text->room = room;
        }
        count = fread(text->bytes + text->length, 1, text->room - text->length, file);
        text->length += count;
    }
    int is_failed = ferror(file);
    fclose(file);
    return is_failed ? NO_INPUT : 0;
}

/* A call of the module over a memory that is ready; what it answers. */
typedef u32 module_call(struct work *work);

/* What becomes of an answer: the program's status. */
typedef int outcome(u32 answer, const struct work *work);

/* Makes the call, in a memory that grows until it is enough, or until there is no more; the program's status. */
static int run(module_call *call, const struct text *input, outcome *report)
{
    static struct work work;
    int status = -1;
    size_t wanted = size_after(0, input->length);
    while (status < 0 && wanted > 0) {
        size_t size = wanted;
        if (!begin(&work, input->bytes, input->length, &size))
            break;
        u32 answer = call(&work);
        look(&work);
        if (answer != LITTLE_MEMORY && answer != LITTLE_ROOM)
            status = report(answer, &work);
        end(&work);
        wanted = size == wanted ? size_after(wanted, input->length) : 0;
    }
    return status < 0 ? fault(NO_MEMORY) : status;
}

/* Writes what a call has put behind the input, and flushes; 0, or the status of a fault. */
static int write_reported(const struct work *work)
{
    if (work->count > 0 && fwrite(work->text, 1, work->count, stdout) < work->count)
        return fault(NO_OUTPUT);
    return fflush(stdout) != 0 ? fault(NO_OUTPUT) : 0;
}

/* The status of an answer to a list or a log, in which a fault is that of a line. */
static int report_lines(u32 answer, const struct work *work)
{
    int status = write_reported(work);
    if (status != 0)
        return status;
    if (answer == FAULT)
        fprintf(stderr, PROGRAM ": %d line %" PRIu64 "\n", BAD_LINE, (uint64_t)work->line);
    return answer == FAULT ? STATUS_OF_FAULT : (int)answer;
}
