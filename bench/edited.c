/* A text that is edited everywhere: the library in process, beside a flat document in the same process.
 *
 * edited trace < SCRIPT     what each part takes, and whether both answer the same
 * edited memory < SCRIPT    how the memory grows in the first part
 * edited each < SCRIPT      what each call of the first part takes
 *
 * A script has lines that make the document, which are answered as lines, and then parts. A part begins with a line
 * `# COUNT FROM TO`, and has COUNT lines, which are read into calls before the first is made. The flat document makes those
 * from FROM up to TO alone, on the library's text of that moment, so that it need not make the others.
 *
 * `trace` writes a line for each part: nanoseconds of processor time that the library took for all of its calls, and the flat
 * document for its own. It ends with status 1 where the sums of the answers to these, or the texts behind them, differ. `memory`
 * writes how many more bytes are resident, and how many more malloc has in use. `each` writes nanoseconds for each call. */
#define _GNU_SOURCE /* for mallinfo2 */
#include "call_lines.h"

#include <malloc.h>
#include <unistd.h>

enum { LINE_ROOM = 1 << 14, MOST_SNAPSHOTS = 1000 };

/* Calls of a part, of which the flat document is given those from `from` up to `to`. */
typedef struct { Call *calls; size_t count, from, to; } Part;
/* A replacement with both texts; `begins` where it is the first of its step. */
typedef struct { size_t start; Units removed, added; bool begins; } Change;
typedef struct {
    Units text;
    Change *changes;
    size_t done, total, room;
    bool begins;
    uint16_t *snapshots[MOST_SNAPSHOTS];
    Number next_snapshot;
} Flat;
/* What some calls took, and the sum of their answers. */
typedef struct { uint64_t nanoseconds, sum; } Took;

static uint64_t sum_of_units(const uint16_t *units, size_t count) {
    uint64_t sum = count;
    for (size_t at = 0; at < count; at++) sum += units[at];
    return sum;
}

static uint64_t of_place(uint64_t line, uint64_t column) { return 1000003 * line + column; }

/* ---- the library */

/* Makes a call, and gives its answer as a number. */
static uint64_t ours(tm_session *session, const Call *call) {
    static uint16_t units[LINE_ROOM];
    tm_place place = {0};
    uint64_t told = 0;
    uint32_t status;
    switch (call->what) {
    case EDIT: status = tm_edit(session, 0, call->first, call->second, call->text.at, call->text.length); break;
    case POSITION:
        status = tm_position(session, 0, call->first, TM_UTF16, &place);
        told = of_place(place.line, place.column);
        break;
    case OFFSET: status = tm_offset(session, 0, call->first, call->second, TM_UTF16, &told); break;
    case LINE:
        status = tm_line(session, 0, call->first, units, LINE_ROOM, &told);
        if (status == TM_OK) told = sum_of_units(units, told);
        break;
    case UNDO: status = tm_undo(session, 0); break;
    case REDO: status = tm_redo(session, 0); break;
    case STOP: status = tm_stop(session, 0); break;
    case SNAPSHOT: status = tm_snapshot(session, 0, &told); break;
    case CLOSE: status = tm_close(session, 0, call->first); break;
    default: status = TM_UNKNOWN;
    }
    if (status != TM_OK) fail(tm_message(status));
    return told;
}

/* The text of now. */
static Units text_of(tm_session *session) {
    uint64_t length = 0, count = 0;
    tm_len(session, 0, &length);
    Units text = {.at = malloc(2 * length + 2), .length = length, .room = length + 1};
    if (!text.at || tm_value(session, 0, 0, length, text.at, length, &count) != TM_OK || count != length) fail("no text");
    return text;
}

/* ---- the flat document */

static Units copied(const uint16_t *at, size_t length) {
    Units copy = {0};
    copy.at = grown(NULL, length, &copy.room, sizeof *at);
    if (length) memcpy(copy.at, at, 2 * length);
    copy.length = length;
    return copy;
}

static void replace(Units *text, size_t start, size_t end, const Units *added) {
    size_t behind = start + added->length, length = text->length - end + behind;
    text->at = grown(text->at, length, &text->room, sizeof *text->at);
    if (behind != end) memmove(text->at + behind, text->at + end, 2 * (text->length - end));
    if (added->length) memcpy(text->at + start, added->at, 2 * added->length);
    text->length = length;
}

static uint64_t edit(Flat *flat, const Call *call) {
    if (call->first > call->second || call->second > flat->text.length) fail("a span is none");
    Units removed = copied(flat->text.at + call->first, call->second - call->first);
    flat->changes = grown(flat->changes, flat->done, &flat->room, sizeof(Change));
    flat->changes[flat->done++] = (Change){call->first, removed, copied(call->text.at, call->text.length), flat->begins};
    flat->total = flat->done, flat->begins = false;
    replace(&flat->text, call->first, call->second, &call->text);
    return 0;
}

static uint64_t undo(Flat *flat) {
    Change *change;
    do {
        if (flat->done == 0) fail("there is nothing to undo");
        change = &flat->changes[--flat->done];
        replace(&flat->text, change->start, change->start + change->added.length, &change->removed);
    } while (!change->begins);
    flat->begins = true;
    return 0;
}

static uint64_t redo(Flat *flat) {
    if (flat->done == flat->total) fail("there is nothing to redo");
    do {
        Change *change = &flat->changes[flat->done++];
        replace(&flat->text, change->start, change->start + change->removed.length, &change->added);
    } while (flat->done < flat->total && !flat->changes[flat->done].begins);
    return 0;
}

static uint64_t position(const Units *text, size_t offset) {
    size_t lines = 1, start = 0;
    for (size_t at = 0; at < offset; at++)
        if (ends_break(text, at)) lines++, start = at + 1;
    return of_place(lines, offset - start + 1);
}

static size_t start_of(const Units *text, Number line) {
    size_t start;
    if (!line_start(text, line, &start)) fail("there is no such line");
    return start;
}

static uint64_t line(const Units *text, Number n) {
    size_t start = start_of(text, n);
    return sum_of_units(text->at + start, line_end(text, start) - start);
}

static uint64_t snapshot(Flat *flat) {
    Number id = flat->next_snapshot++;
    if (id > MOST_SNAPSHOTS) fail("too many snapshots");
    flat->snapshots[id - 1] = memcpy(malloc(2 * flat->text.length + 1), flat->text.at, 2 * flat->text.length);
    return id;
}

/* Carries a call out, and gives its answer as a number. */
static uint64_t flats(Flat *flat, const Call *call) {
    switch (call->what) {
    case EDIT: return edit(flat, call);
    case POSITION: return position(&flat->text, call->first);
    case OFFSET: return start_of(&flat->text, call->first) + call->second - 1;
    case LINE: return line(&flat->text, call->first);
    case UNDO: return undo(flat);
    case REDO: return redo(flat);
    case STOP: return flat->begins = true, 0;
    case SNAPSHOT: return snapshot(flat);
    case CLOSE: return free(flat->snapshots[call->first - 1]), 0;
    default: fail("a call that the flat document has not");
    }
    return 0;
}

/* ---- both */

/* A function of its own, by the name of which callgrind counts. */
static __attribute__((noinline)) Took by_ours(tm_session *session, const Part *part, size_t from, size_t to) {
    uint64_t sum = 0, began = nanoseconds();
    for (size_t at = from; at < to; at++) sum += ours(session, &part->calls[at]);
    return (Took){nanoseconds() - began, sum};
}

static Took by_flat(Flat *flat, const Part *part) {
    uint64_t sum = 0, began = nanoseconds();
    for (size_t at = part->from; at < part->to; at++) sum += flats(flat, &part->calls[at]);
    return (Took){nanoseconds() - began, sum};
}

static bool is_equal(const Units *one, const Units *other) {
    return one->length == other->length && memcmp(one->at, other->at, 2 * one->length) == 0;
}

/* Gives the flat document the library's text. */
static void take_text(tm_session *session, Flat *flat) {
    free(flat->text.at);
    flat->text = text_of(session);
}

/* Ends the run where the two answered otherwise, or have other texts now. */
static void must_agree(tm_session *session, const Flat *flat, size_t number, const Took *both, const Took *theirs) {
    Units text = text_of(session);
    bool texts = is_equal(&text, &flat->text);
    free(text.at);
    if (texts && both->sum == theirs->sum) return;
    fprintf(stderr, "edited: part %zu: the %s of the flat document differ\n", number, texts ? "answers" : "texts");
    exit(1);
}

static void time_part(tm_session *session, Flat *flat, const Part *part, size_t number) {
    Took before = by_ours(session, part, 0, part->from), theirs = {0};
    if (part->to > part->from) take_text(session, flat);
    Took both = by_ours(session, part, part->from, part->to);
    if (part->to > part->from) {
        theirs = by_flat(flat, part);
        must_agree(session, flat, number, &both, &theirs);
    }
    Took rest = by_ours(session, part, part->to, part->count);
    printf("%lu %lu\n", before.nanoseconds + both.nanoseconds + rest.nanoseconds, theirs.nanoseconds);
}

/* ---- the parts */

/* How many lines stand before the first part. */
static size_t setup_of(char **lines, size_t all) {
    size_t setup = 0;
    while (setup < all && lines[setup][0] != '#') setup++;
    return setup;
}

/* Reads the part that begins with this line. */
static Part part_of(char **lines, size_t left) {
    Part part = {0};
    if (sscanf(lines[0], "# %zu %zu %zu", &part.count, &part.from, &part.to) != 3 || part.count >= left) fail("no part");
    if (part.from > part.to || part.to > part.count) fail("the flat document's calls are none of the part");
    part.calls = malloc((part.count + 1) * sizeof *part.calls);
    if (!part.calls) fail("no memory");
    for (size_t at = 0; at < part.count; at++) part.calls[at] = call_of(lines[at + 1]);
    return part;
}

static void trace(tm_session *session, char **lines, size_t left) {
    static Flat flat = {.begins = true, .next_snapshot = 1};
    for (size_t at = 0, number = 1; at < left; number++) {
        Part part = part_of(lines + at, left - at);
        time_part(session, &flat, &part, number);
        at += part.count + 1;
        free(part.calls);
    }
}

static uint64_t resident(void) {
    unsigned long pages = 0;
    FILE *told = fopen("/proc/self/statm", "r");
    if (!told || fscanf(told, "%*u %lu", &pages) != 1) fail("Linux does not tell what is resident");
    fclose(told);
    return pages * (uint64_t)sysconf(_SC_PAGESIZE);
}

static uint64_t in_use(void) {
    struct mallinfo2 now = mallinfo2();
    return now.uordblks + now.hblkhd;
}

static void memory(tm_session *session, char **lines, size_t left) {
    Part part = part_of(lines, left);
    malloc_trim(0); /* what the reading freed would be taken again without being seen */
    uint64_t pages = resident(), used = in_use();
    by_ours(session, &part, 0, part.count);
    printf("%ld %ld\n", (long)(resident() - pages), (long)(in_use() - used));
}

static void each(tm_session *session, char **lines, size_t left) {
    Part part = part_of(lines, left);
    uint64_t *clocks = malloc((part.count + 1) * sizeof *clocks);
    if (!clocks) fail("no memory");
    clocks[0] = nanoseconds();
    for (size_t at = 0; at < part.count; at++) ours(session, &part.calls[at]), clocks[at + 1] = nanoseconds();
    for (size_t at = 0; at < part.count; at++) printf("%lu\n", clocks[at + 1] - clocks[at]);
    free(clocks);
}

int main(int argc, char **argv) {
    size_t all = 0;
    char **lines = read_lines(&all);
    size_t setup = setup_of(lines, all);
    tm_session session = opened(lines, setup);
    if (argc != 2) fail("usage: edited trace|memory|each < SCRIPT");
    if (strcmp(argv[1], "trace") == 0) trace(&session, lines + setup, all - setup);
    else if (strcmp(argv[1], "memory") == 0) memory(&session, lines + setup, all - setup);
    else if (strcmp(argv[1], "each") == 0) each(&session, lines + setup, all - setup);
    else fail("there is no such word");
    return tm_free(&session) == TM_OK ? 0 : 1;
}
