/* Reading a line of a script: each of these goes past what it reads, or tells that it is not there. */
#include "flat_text.h"

static bool word(const char **at, const char *expected) {
    size_t length = strlen(expected);
    if (strncmp(*at, expected, length) != 0) return false;
    *at += length;
    return true;
}

static bool number(const char **at, Number *value) {
    if (**at < '0' || **at > '9') return false;
    char *end;
    *value = strtoull(*at, &end, 10);
    *at = end;
    return true;
}

static bool span(const char **at, size_t *start, size_t *end) {
    return word(at, "\"at\":[") && number(at, start) && word(at, ",") && number(at, end) && word(at, "]");
}

/* The unit that an escape stands for, or the character as it is. */
static uint16_t unit(const char **at) {
    if (**at < ' ') fail("a text has more than ASCII");
    if (**at != '\\') return (uint16_t)**at;
    ++*at;
    if (**at == '"' || **at == '\\') return (uint16_t)**at;
    if (**at != 'n' && **at != 'r') fail("a text has another escape than those of breaks, quotes and backslashes");
    return **at == 'n' ? '\n' : '\r';
}

static bool text(const char **at, Units *units) {
    *units = (Units){0};
    if (!word(at, "\"")) return false;
    for (; **at && **at != '"'; ++*at) push(units, unit(at));
    return word(at, "\"");
}

static bool kind(const char **at, Kind *value) {
    *value = word(at, "\"lf\"") ? LF : word(at, "\"crlf\"") ? CRLF : MIXED;
    return *value != MIXED;
}

static bool closes(const char **at) { return word(at, "}") && (**at == '\n' || **at == 0); }
