/* The program tcpkit: its words, and what it writes, as the proved program has them (docs/FORMATS.md). */

/* The file that the words ask for, with `decode` or `replay` in front; NULL where they are of no form. */
static const char *path_in(int count, char **words)
{
    if (!are_texts(count, words))
        return NULL;
    if (count < 3 || count > 4 || (strcmp(words[1], "decode") != 0 && strcmp(words[1], "replay") != 0))
        return NULL;
    if (count == 3)
        return is_plain(words[2]) ? words[2] : NULL;
    if (strcmp(words[2], "--") == 0)
        return words[3];
    return is_plain(words[2]) && strcmp(words[3], "--") == 0 ? words[2] : NULL;
}

static u32 decode(struct work *work) { return MODULE(list)(BLOCK(work), INPUT(work), OUTPUT(work), COUNT(work), LINE(work)); }

static u32 replay(struct work *work) { return MODULE(replay)(BLOCK(work), INPUT(work), OUTPUT(work), COUNT(work)); }

/* The status of a replay, whose fault is a line of its own for standard error. */
static int report_replay(u32 answer, const struct work *work)
{
    if (answer != FAULT) {
        int status = write_reported(work);
        return status != 0 ? status : (int)answer;
    }
    fwrite(work->text, 1, work->count, stderr);
    return STATUS_OF_FAULT;
}

int main(int count, char **words)
{
    struct text input = {NULL, 0, 0};
    const char *path = path_in(count, words);
    int status, number = path ? read_all(fopen(path, "rb"), &input) : WORDS;
    if (number != 0)
        status = fault(number);
    else if (words[1][0] == 'd')
        status = run(decode, &input, report_lines);
    else
        status = run(replay, &input, report_replay);
    free(input.bytes);
    return status;
}
