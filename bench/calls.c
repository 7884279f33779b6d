/* The library in process: carries the lines of a script out by calls, and tells what the calls took.
 *
 * calls SETUP < SCRIPT     the first SETUP lines make the document, and are answered as lines
 *
 * The others are read into calls before the first is made: edits of one op told by offsets, `position`, `offset`, `line`,
 * `level` and `match`, as bench/run writes them. They are made on one document, by the clock of the process, and then on
 * another one like it, with the replies that the program would write. On standard error stands how many nanoseconds of
 * processor time the first round took. */
#include "call_lines.h"

enum { LINE_ROOM = 128 };

/* What a call tells: numbers, or the units of a line. */
typedef struct { uint64_t number; tm_place place; tm_partner partner; uint16_t units[LINE_ROOM]; } Told;

static uint32_t made(tm_session *session, const Call *call, Told *told) {
    switch (call->what) {
    case EDIT: return tm_edit(session, 0, call->first, call->second, call->text.at, call->text.length);
    case POSITION: return tm_position(session, 0, call->first, TM_UTF16, &told->place);
    case OFFSET: return tm_offset(session, 0, call->first, call->second, TM_UTF16, &told->number);
    case LINE: return tm_line(session, 0, call->first, told->units, LINE_ROOM, &told->number);
    case LEVEL: return tm_level(session, 0, call->first, call->second, TM_UTF16, &told->number);
    default: return tm_match(session, 0, call->first, call->second, TM_UTF16, &told->partner);
    }
}

static void write_line(const Told *told) {
    printf("ok \"");
    for (size_t at = 0; at < told->number; at++) putchar(told->units[at]);
    printf("\"\n");
}

/* The reply to a call that was made. */
static void reply(tm_session *session, const Call *call, const Told *told, uint32_t status) {
    uint64_t version, alternative, length, lines;
    if (status == TM_NOTHING) { puts("ok none"); return; }
    if (status != TM_OK) fail("a call was refused");
    switch (call->what) {
    case EDIT:
        tm_versions(session, 0, &version, &alternative), tm_len(session, 0, &length), tm_line_count(session, 0, &lines);
        printf("ok %lu %lu %lu\n", version, length, lines);
        break;
    case POSITION: printf("ok %lu %lu\n", told->place.line, told->place.column); break;
    case LINE: write_line(told); break;
    case MATCH: printf("ok %lu %lu %lu\n", told->partner.line, told->partner.column, told->partner.length); break;
    default: printf("ok %lu\n", told->number);
    }
}

int main(int argc, char **argv) {
    if (argc != 2) fail("usage: calls SETUP < SCRIPT");
    size_t all = 0, setup = strtoull(argv[1], NULL, 10);
    char **lines = read_lines(&all);
    Call *calls = calloc(all - setup + 1, sizeof *calls);
    if (!calls || setup > all) fail("no calls");
    for (size_t at = setup; at < all; at++) calls[at - setup] = call_of(lines[at]);
    static Told told;
    tm_session timed = opened(lines, setup);
    uint64_t began = nanoseconds();
    for (size_t at = 0; at < all - setup; at++) made(&timed, &calls[at], &told);
    fprintf(stderr, "%lu\n", nanoseconds() - began);
    tm_free(&timed);
    tm_session session = opened(lines, setup);
    for (size_t at = 0; at < all - setup; at++) {
        uint32_t status = made(&session, &calls[at], &told);
        reply(&session, &calls[at], &told, status);
    }
    return tm_free(&session) == TM_OK ? 0 : 1;
}
