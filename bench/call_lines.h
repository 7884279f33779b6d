/* Lines of a script as calls of the library: each kind of line that the benches time in process. */
#define _POSIX_C_SOURCE 200809L
#include "flat_fields.h"

#include <time.h>

#include "textmodel.h"

typedef enum { EDIT, POSITION, OFFSET, LINE, LEVEL, MATCH, UNDO, REDO, STOP, SNAPSHOT, CLOSE } What;
typedef struct { What what; Number first, second; Units text; } Call;

static bool two(const char **at, const char *before, const char *between, Call *call) {
    return word(at, before) && number(at, &call->first) && word(at, between) && number(at, &call->second);
}

static bool one(const char **at, const char *before, Call *call) { return word(at, before) && number(at, &call->first); }

/* The fields of the named command. */
static bool reads(const char **at, Call *call) {
    static const char *const col = ",\"col\":";
    if (word(at, "edit\",")) {
        call->what = EDIT;
        return two(at, "\"ops\":[{\"at\":[", ",", call) && word(at, "],\"text\":") && text(at, &call->text) && word(at, "}]");
    }
    if (word(at, "position\",")) return call->what = POSITION, one(at, "\"offset\":", call);
    if (word(at, "offset\",")) return call->what = OFFSET, two(at, "\"line\":", col, call);
    if (word(at, "line\",")) return call->what = LINE, one(at, "\"n\":", call);
    if (word(at, "level\",")) return call->what = LEVEL, two(at, "\"line\":", col, call);
    if (word(at, "match\",")) return call->what = MATCH, two(at, "\"line\":", col, call);
    if (word(at, "close\",")) return call->what = CLOSE, one(at, "\"id\":", call);
    if (word(at, "undo\"")) return call->what = UNDO, true;
    if (word(at, "redo\"")) return call->what = REDO, true;
    if (word(at, "stop\"")) return call->what = STOP, true;
    return word(at, "snapshot\"") && (call->what = SNAPSHOT, true);
}

static Call call_of(const char *line) {
    Call call = {0};
    if (!word(&line, "{\"cmd\":\"") || !reads(&line, &call) || !closes(&line)) fail("a line that is no call");
    return call;
}

static tm_session opened(char **lines, size_t count) {
    tm_session session = {0};
    uint64_t length;
    if (tm_make(&session) != TM_OK) fail("no memory");
    for (size_t at = 0; at < count; at++)
        if (tm_answer(&session, lines[at], strlen(lines[at]), &length) != TM_OK) fail("no answer");
    return session;
}

static uint64_t nanoseconds(void) {
    struct timespec now;
    clock_gettime(CLOCK_PROCESS_CPUTIME_ID, &now);
    return (uint64_t)now.tv_sec * 1000000000 + (uint64_t)now.tv_nsec;
}

/* All lines of standard input, without their feeds. */
static char **read_lines(size_t *count) {
    char **lines = NULL, *line = NULL;
    size_t room = 0, bytes = 0;
    for (ssize_t length; (length = getline(&line, &bytes, stdin)) > 0; line = NULL, bytes = 0) {
        if (line[length - 1] == '\n') line[length - 1] = 0;
        lines = grown(lines, *count, &room, sizeof *lines);
        lines[(*count)++] = line;
    }
    return lines;
}
