/* A JSON text (see json.h). */
#include "json.h"

#include <string.h>

/* A path longer than this is none that is asked for. */
enum { PATH = 64 };

struct reader {
    const char *at, *end;
    struct json_member *members;
    size_t count;
    char path[PATH];
    size_t used; /* of the path; PATH where it is longer */
    int depth;
};

static int value(struct reader *reader);

static void pass_space(struct reader *reader)
{
    while (reader->at < reader->end && *reader->at && strchr(" \t\n\r", *reader->at))
        reader->at++;
}

/* Whether the next byte is this one, which is passed then. */
static int has(struct reader *reader, char wanted)
{
    pass_space(reader);
    if (reader->at == reader->end || *reader->at != wanted)
        return 0;
    reader->at++;
    return 1;
}

static int is_digit(const struct reader *reader) { return reader->at < reader->end && *reader->at >= '0' && *reader->at <= '9'; }

/* The number of four hexadecimal digits, or below 0. */
static int read_hex(struct reader *reader)
{
    static const char DIGITS[] = "0123456789abcdefABCDEF";
    int number = 0;
    for (int left = 4; left > 0; left--) {
        const char *digit = reader->at < reader->end && *reader->at ? strchr(DIGITS, *reader->at) : NULL;
        if (!digit)
            return -1;
        number = number * 16 + (int)(digit - DIGITS < 16 ? digit - DIGITS : digit - DIGITS - 6);
        reader->at++;
    }
    return number;
}

/* What follows a backslash; below 0 where that is none. */
static int read_escape(struct reader *reader)
{
    static const char NAMES[] = "\"\\/bfnrt", MEANT[] = "\"\\/\b\f\n\r\t";
    const char *name = reader->at < reader->end && *reader->at ? strchr(NAMES, *reader->at) : NULL;
    if (name)
        return reader->at++, MEANT[name - NAMES];
    return has(reader, 'u') ? read_hex(reader) : -1;
}

/* A string behind its quotation mark; its kind goes into *kind, and its bytes to `out`, of JSON_KEPT. */
static int read_string(struct reader *reader, char *out, enum json_kind *kind)
{
    size_t length = 0;
    *kind = JSON_STRING;
    for (;;) {
        if (reader->at == reader->end || (unsigned char)*reader->at < ' ')
            return 0;
        int byte = (unsigned char)*reader->at++;
        if (byte == '"')
            break;
        if (byte == '\\' && (byte = read_escape(reader)) < 0)
            return 0;
        if (byte == 0 || byte > 126 || length + 1 == JSON_KEPT)
            *kind = JSON_OTHER;
        else
            out[length++] = (char)byte;
    }
    out[length] = 0;
    return 1;
}

/* One digit or more; the number that they are goes into *number, which stays at 2^32 from there on. */
static int read_digits(struct reader *reader, uint64_t *number)
{
    if (!is_digit(reader))
        return 0;
    for (*number = 0; is_digit(reader); reader->at++)
        *number = *number > UINT32_MAX ? *number : *number * 10 + (uint64_t)(*reader->at - '0');
    return 1;
}

/* A number (RFC 8259, 6). */
static int read_number(struct reader *reader, uint32_t *out, enum json_kind *kind)
{
    uint64_t number, unused;
    int is_below = has(reader, '-'), is_zero = reader->at < reader->end && *reader->at == '0', is_whole = 1;
    if (!(is_zero ? (number = 0, reader->at++, 1) : read_digits(reader, &number)))
        return 0;
    if (reader->at < reader->end && *reader->at == '.' && (is_whole = 0, reader->at++, !read_digits(reader, &unused)))
        return 0;
    if (reader->at < reader->end && (*reader->at == 'e' || *reader->at == 'E')) {
        is_whole = 0, reader->at++;
        if (reader->at < reader->end && (*reader->at == '+' || *reader->at == '-'))
            reader->at++;
        if (!read_digits(reader, &unused))
            return 0;
    }
    *kind = is_whole && !is_below && number <= UINT32_MAX ? JSON_NUMBER : JSON_OTHER;
    *out = (uint32_t)number;
    return 1;
}

static int read_word(struct reader *reader)
{
    static const char *const WORDS[] = {"true", "false", "null"};
    for (size_t at = 0; at < sizeof WORDS / sizeof WORDS[0]; at++) {
        size_t length = strlen(WORDS[at]);
        if ((size_t)(reader->end - reader->at) >= length && memcmp(reader->at, WORDS[at], length) == 0)
            return reader->at += length, 1;
    }
    return 0;
}

/* The path of a member of this name; a name that isn't kept is none that is asked for. */
static void enter(struct reader *reader, const char *name, enum json_kind kind)
{
    size_t length = strlen(name), dot = reader->used > 0;
    if (kind != JSON_STRING || reader->used + dot + length >= PATH) {
        reader->used = PATH;
        return;
    }
    if (dot)
        reader->path[reader->used++] = '.';
    memcpy(reader->path + reader->used, name, length);
    reader->used += length;
}

/* The members of an object, or the elements of an array, which have no path. */
static int read_many(struct reader *reader, char last)
{
    size_t used = reader->used;
    char name[JSON_KEPT];
    enum json_kind kind;
    if (has(reader, last))
        return 1;
    do {
        if (last == '}' && !(has(reader, '"') && read_string(reader, name, &kind) && has(reader, ':')))
            return 0;
        if (last == '}')
            enter(reader, name, kind);
        else
            reader->used = PATH;
        if (!value(reader))
            return 0;
        reader->used = used;
    } while (has(reader, ','));
    return has(reader, last);
}

/* What was found at this path is what was asked for, if anything was. */
static void note(struct reader *reader, const struct json_member *found)
{
    for (size_t at = 0; at < reader->count && reader->used > 0 && reader->used < PATH; at++) {
        struct json_member *member = &reader->members[at];
        if (strlen(member->path) != reader->used || memcmp(member->path, reader->path, reader->used) != 0)
            continue;
        member->kind = found->kind;
        member->number = found->number;
        memcpy(member->string, found->string, sizeof member->string);
    }
}

static int value(struct reader *reader)
{
    struct json_member found = {.kind = JSON_OTHER};
    int is_done;
    if (reader->depth == JSON_DEPTH)
        return 0;
    reader->depth++;
    if (has(reader, '{'))
        is_done = read_many(reader, '}');
    else if (has(reader, '['))
        is_done = read_many(reader, ']');
    else if (has(reader, '"'))
        is_done = read_string(reader, found.string, &found.kind);
    else if (is_digit(reader) || (reader->at < reader->end && *reader->at == '-'))
        is_done = read_number(reader, &found.number, &found.kind);
    else
        is_done = read_word(reader);
    note(reader, &found);
    reader->depth--;
    return is_done;
}

int json_read(const char *text, size_t length, struct json_member *members, size_t count)
{
    struct reader reader = {.at = text, .end = text + length, .members = members, .count = count};
    for (size_t at = 0; at < count; at++)
        members[at].kind = JSON_NONE;
    if (!value(&reader))
        return 0;
    pass_space(&reader);
    return reader.at == reader.end;
}
