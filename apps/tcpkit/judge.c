/* The program tcpjudge: its words, and what it writes, as the proved program has them (docs/JUDGE.md). */
#if defined(_WIN32)
#include <io.h>
#define IS_TERMINAL _isatty(1)
#else
#include <unistd.h>
#define IS_TERMINAL isatty(1)
#endif

enum { FIRST_OF_RULE = 1, IS_HELP = 1, NOTHING_JUDGED = 45, CUT_CAPTURE = 46, COMPLETE_CAPTURE = 48 };

/* What a capture comes to beside what a log does: its place is no address, it has no end to judge, it is cut short or damaged. */
enum { IS_NO_ADDRESS = 6, IS_NOTHING = 7, IS_CUT = 8 };

/* An address has at most 45 characters (RFC 4291, 2.2), and tells a capture's form by so many bytes. */
enum { MOST_OF_ADDRESS = 45, HEAD = 24 };

/* What the report of a log ends with that has no finding. */
static const char NO_FINDING[] = " findings 0\n";

static int is_complete, is_json, is_painted;
static const char *at = "";

/* What an option's word says behind this name: what is behind `=`, or the next word, which begins with no hyphen unless it is one. */
static const char *value_in(const char *name, int count, char **words, int *i)
{
    size_t length = strlen(name);
    if (strncmp(words[*i], name, length) != 0)
        return NULL;
    if (words[*i][length] == '=')
        return words[*i] + length + 1;
    if (words[*i][length] != 0 || *i + 1 >= count || !is_plain(words[*i + 1]))
        return NULL;
    return words[++*i];
}

/* Sets a flag that wasn't set; whether it could be. */
static int set(int *flag) { return *flag ? 0 : (*flag = 1); }

/* Reads the words, in their order: the path of the file, NULL where they are of no form, and `help` where that is asked for. */
static const char *path_in(int count, char **words, const char **place, const char **color, int *help)
{
    const char *path = NULL, *value;
    int is_behind = 0, is_well = 1;
    if (!are_texts(count, words))
        return NULL;
    for (int i = 1; i < count && is_well; i++) {
        if (is_behind || is_plain(words[i]))
            is_well = !path, path = words[i];
        else if (strcmp(words[i], "--") == 0)
            is_behind = 1;
        else if (strcmp(words[i], "--help") == 0 || strncmp(words[i], "-h", 2) == 0)
            return *help = IS_HELP, NULL;
        else if (strcmp(words[i], "--complete") == 0)
            is_well = set(&is_complete);
        else if (strcmp(words[i], "--json") == 0)
            is_well = set(&is_json);
        else if ((value = value_in("--at", count, words, &i)) != NULL)
            is_well = !*place, *place = value;
        else if ((value = value_in("--color", count, words, &i)) != NULL)
            is_well = !*color, *color = value;
        else
            is_well = 0;
    }
    return is_well ? path : NULL;
}

/* Whether the report has colors is asked by a word that is one of three. NO_COLOR counts where it has a value. */
static int read_color(const char *color)
{
    const char *none = getenv("NO_COLOR");
    if (!color || strcmp(color, "auto") == 0)
        is_painted = IS_TERMINAL && !(none && *none);
    else if (strcmp(color, "always") == 0)
        is_painted = 1;
    else
        return strcmp(color, "never") == 0;
    return 1;
}

static u32 judge(struct work *work)
{
    return MODULE(judge)(BLOCK(work), INPUT(work), (u32)is_complete, FIRST_OF_RULE, OUTPUT(work), COUNT(work), LINE(work));
}

static u32 judge_capture(struct work *work)
{
    return MODULE(capture)(BLOCK(work), INPUT(work), WORD(work, at), (u32)is_json, (u32)is_painted, OUTPUT(work), COUNT(work));
}

static int fault_of(int number, const char *words)
{
    fprintf(stderr, PROGRAM ": %d %s\n", number, words);
    return STATUS_OF_FAULT;
}

/* The status of a judged log. One with no finding that isn't clean has no segment that the end sent. */
static int report_verdict(u32 answer, const struct work *work)
{
    int status = report_lines(answer, work);
    size_t last = sizeof NO_FINDING - 1;
    if (status != REFUSED || work->count < last || memcmp(work->text + work->count - last, NO_FINDING, last) != 0)
        return status;
    return fault_of(NOTHING_JUDGED, "no segment that the end sent");
}

/* What a call only answers. */
static int answer_alone(u32 answer, const struct work *work) { return (void)work, (int)answer; }

/* The status of a judged capture; FAULT, with nothing written, where the file is none. */
static int report_capture(u32 answer, const struct work *work)
{
    int status = answer == FAULT ? 0 : write_reported(work);
    if (status != 0)
        return status;
    if (answer == IS_CUT)
        return fault_of(CUT_CAPTURE, "the capture is cut short or damaged");
    if (answer == IS_NOTHING)
        return fault_of(NOTHING_JUDGED, "no segment of TCP over IPv4 or IPv6 that is whole");
    return (int)answer;
}

/* What the module answers for the first bytes of a file, and the place. */
static int answer_for(const struct text *input, size_t most)
{
    struct text first = *input;
    first.length = first.length < most ? first.length : most;
    return run(judge_capture, &first, answer_alone);
}

/* The status of a file, as what it is. */
static int judge_file(const struct text *input, int has_place)
{
    int is_capture = answer_for(input, HEAD) != FAULT;
    if (is_capture && is_complete)
        return fault_of(COMPLETE_CAPTURE, "--complete is of logs; of a capture --at names the end where it was taken");
    if (is_capture)
        return run(judge_capture, input, report_capture);
    return has_place || is_json ? fault(WORDS) : run(judge, input, report_verdict);
}

int main(int count, char **words)
{
    struct text input = {NULL, 0, 0};
    int help = 0, status;
    const char *place = NULL, *color = NULL, *path = path_in(count, words, &place, &color, &help);
    if (help)
        return fputs(HELP, stdout) == EOF || fflush(stdout) != 0 ? fault(NO_OUTPUT) : WELL;
    int is_well = path && read_color(color) && (!place || (*place && strlen(place) <= MOST_OF_ADDRESS));
    at = is_well && place ? place : "";
    if (is_well && answer_for(&input, 0) == IS_NO_ADDRESS)
        is_well = 0;
    int number = !is_well ? WORDS : read_all(strcmp(path, "-") == 0 ? stdin : fopen(path, "rb"), &input);
    status = number != 0 ? fault(number) : judge_file(&input, place != NULL);
    free(input.bytes);
    return status;
}
