/* A text as one array of units, and its lines, which are found by scanning it from its beginning. */
#include <stdbool.h>
#include <stdint.h>
#include <stdio.h>
#include <stdlib.h>
#include <string.h>

typedef uint64_t Number;

/* `has_returns` where a return was ever among them. */
typedef struct { uint16_t *at; size_t length, room; bool has_returns; } Units;

/* Which line endings a text may have: any, feeds alone, or returns with feeds alone. */
typedef enum { MIXED, LF, CRLF } Kind;

static void fail(const char *why) {
    fprintf(stderr, "flat: %s\n", why);
    exit(3);
}

/* Room for more than `count` values; the array may move. */
static void *grown(void *at, size_t count, size_t *room, size_t bytes) {
    if (count < *room) return at;
    *room = count + count / 2 + 8;
    at = realloc(at, *room * bytes);
    if (!at) fail("no memory");
    return at;
}

static bool is_return(uint16_t unit) { return unit == '\r'; }

static bool is_of_break(uint16_t unit) { return unit <= '\r' && (unit == '\n' || is_return(unit)); }

static bool feeds(const Units *text, size_t at) { return at < text->length && text->at[at] == '\n'; }

/* Whether a break ends with this unit: a return that a feed follows begins one. */
static bool ends_break(const Units *text, size_t at) {
    return is_of_break(text->at[at]) && !(is_return(text->at[at]) && feeds(text, at + 1));
}

/* Whether this is no place: between a return and the feed of its ending. */
static bool is_inside(const Units *text, Kind kind, size_t at) {
    return kind == CRLF && at > 0 && feeds(text, at) && is_return(text->at[at - 1]);
}

static bool is_place(const Units *text, Kind kind, size_t at) {
    return at <= text->length && !is_inside(text, kind, at);
}

static void push(Units *text, uint16_t unit) {
    text->at = grown(text->at, text->length, &text->room, sizeof unit);
    text->at[text->length++] = unit;
    text->has_returns |= is_return(unit);
}

/* The text with the line ending of the kind in the place of each other one: a copy, or the text itself for `MIXED`. */
static Units normalized(Units text, Kind kind) {
    if (kind == MIXED) return text;
    Units copy = {0};
    for (size_t at = 0; at < text.length; at++) {
        bool stays = !is_of_break(text.at[at]);
        if (!stays && !ends_break(&text, at)) continue;
        if (!stays && kind == CRLF) push(&copy, '\r');
        push(&copy, stays ? text.at[at] : '\n');
    }
    return copy;
}

/* For each place of a text, where it is in one of the same lines with other endings: inside an ending, before it. */
static size_t *places_in(const Units *other, const Units *text) {
    size_t *places = malloc((text->length + 1) * sizeof *places), to = 0;
    if (!places) fail("no memory");
    for (size_t at = 0; at < text->length; at++) {
        places[at] = to;
        if (!is_of_break(text->at[at])) to++;
        else if (ends_break(text, at)) to += 1 + (is_return(other->at[to]) && feeds(other, to + 1));
    }
    places[text->length] = to;
    return places;
}

static size_t lone_returns(const Units *text) {
    size_t count = 0;
    for (size_t at = 0; at < text->length; at++) count += is_return(text->at[at]) && ends_break(text, at);
    return count;
}

static size_t line_count(const Units *text) {
    size_t lines = 1;
    for (size_t at = 0; at < text->length; at++) lines += text->at[at] == '\n';
    return text->has_returns ? lines + lone_returns(text) : lines;
}

/* Where the content of the line ends that starts here. */
static size_t line_end(const Units *text, size_t start) {
    while (start < text->length && !is_of_break(text->at[start])) start++;
    return start;
}

/* Where this line starts, counted from 1. */
static bool line_start(const Units *text, Number line, size_t *start) {
    *start = 0;
    if (line > text->length + 1) return false;
    for (Number now = 1; now < line; now++) {
        size_t end = line_end(text, *start);
        if (end == text->length) return false;
        *start = end + 1 + (is_return(text->at[end]) && feeds(text, end + 1));
    }
    return line > 0;
}
