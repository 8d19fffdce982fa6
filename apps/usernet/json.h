/*
 * json.h: a JSON text (RFC 8259) is read for the few members that are asked for. All else in it has to be well formed, and is passed over.
 * It takes no memory, however deep or long the text is.
 */
#ifndef USERNET_JSON_H
#define USERNET_JSON_H

#include <stddef.h>
#include <stdint.h>

/* The bytes of a string that are kept, with the zero behind them; how deep a text may be. */
enum { JSON_KEPT = 64, JSON_DEPTH = 16 };

/* What a member is. A string with more bytes than are kept, or with one that isn't ASCII, and a number that is no whole one below 2^32
   are JSON_OTHER, as is all that is neither. */
enum json_kind { JSON_NONE, JSON_STRING, JSON_NUMBER, JSON_OTHER };

/* A member that is asked for, by its path from the outermost object: "arguments.id". The last one of a name is found. */
struct json_member {
    const char *path;
    enum json_kind kind;
    char string[JSON_KEPT];
    uint32_t number;
};

/* Finds these members; whether the text is well formed. */
int json_read(const char *text, size_t length, struct json_member *members, size_t count);

#endif
