/* A flat text model: what the program is measured beside, and its replies compared with.
 *
 * The text is one array of UTF-16 units that each edit moves. Lines are found by scanning it from its beginning, a text by
 * `memmem` of the C library, and each question about brackets folds all of it, with its comments and strings where the
 * document has the marks of C; a snapshot, an event and a change of the kind of line ending copy all of it. It reads the
 * lines that bench/run writes and those alone: fields in one order without blanks, no marks but those of C, texts of ASCII
 * with `\n`, `\r`, `\"` and `\\` as their escapes, the ops of an edit in rising order. Any other line is answered `! syntax`.
 * What an `open` or an edit lets go of is not freed. */
#define _GNU_SOURCE /* for memmem */
#include "flat_fields.h"

enum { MOST_OPEN = 300, MOST_SNAPSHOTS = 1000, BUFFER_BYTES = 1 << 16 };

static const size_t NOWHERE = SIZE_MAX;
static const char C_MARKS[] = ",\"marks\":{\"line\":\"//\",\"block\":[\"/*\",\"*/\"],\"quotes\":[\"\\\"\",\"'\"]}";

typedef struct { size_t start, end; Units text; } Op;
/* A replacement that was made, with both texts; `begins` where it is the first of its step. Or a change of the kind of
 * line ending: `removed` is the whole text on its other side, which has this kind. */
typedef struct { size_t start; Units removed, added; bool begins, is_of_kind; Kind kind; } Change;
typedef struct { Number id, owner, stick; size_t start, end; bool goes; } Mark;
typedef struct { size_t at, line, col, level, partner; int kind; char status; } Bracket;
/* A change that was sent: the version before it, and the whole text after it. */
typedef struct { Number from; Units after; } Event;
typedef struct {
    Units text;
    Kind kind;
    bool is_of_c;
    Number version, next_id;
    Change *changes;
    size_t done, total, change_room;
    bool begins;
    Mark *marks;
    size_t mark_count, mark_room;
    Bracket *brackets;
    size_t bracket_count, bracket_room;
    uint16_t *snapshots[MOST_SNAPSHOTS];  /* by id, the first of which is 1 */
    Number next_snapshot;
    Units mirror;
    Number mirror_version;  /* 0 where there is no mirror */
    Event *sent;
    size_t sent_count, sent_room;
} Document;

static bool refuse_range(void) { return printf("! range") > 0; }

/* ---- places and positions */

static bool is_span(const Document *document, size_t start, size_t end) {
    const Units *text = &document->text;
    return start <= end && is_place(text, document->kind, start) && is_place(text, document->kind, end);
}

/* Reads a line and a column, with this between them, and looks for the offset, which is NOWHERE where there is none. */
static bool offset_of(const Units *text, const char **at, const char *between, size_t *offset) {
    Number line, col;
    if (!number(at, &line) || !word(at, between) || !number(at, &col)) return false;
    bool is_there = line_start(text, line, offset) && col > 0 && col <= line_end(text, *offset) - *offset + 1;
    *offset = is_there ? *offset + col - 1 : NOWHERE;
    return true;
}

/* ---- decorations */

static bool is_before(size_t offset, size_t place, bool stays) {
    return offset < place || (offset == place && stays);
}

/* Where an offset stands after the op, by whether it sticks to the text before it. */
static size_t moved(size_t offset, bool sticks, const Op *op) {
    size_t removed = op->end - op->start, added = op->text.length;
    size_t replaced = removed < added ? removed : added;
    if (is_before(offset, op->start, removed > 0 || sticks)) return offset;
    if (replaced > 0 && is_before(offset, op->start + replaced, added < removed || sticks)) return offset;
    return is_before(offset, op->end, sticks) ? op->start + added : offset - removed + added;
}

static void move_marks(Document *document, const Op *op) {
    for (size_t i = 0; i < document->mark_count; i++) {
        Mark *mark = &document->marks[i];
        mark->start = moved(mark->start, mark->stick == 0 || mark->stick == 2, op);
        mark->end = moved(mark->end, mark->stick == 1 || mark->stick == 2, op);
        if (mark->end < mark->start) mark->end = mark->start;
    }
}

static Mark *mark_of(Document *document, Number id) {
    for (size_t i = 0; id < document->next_id && i < document->mark_count; i++)
        if (document->marks[i].id == id) return &document->marks[i];
    return NULL;
}

/* Takes out the marks that go, or lets them stay. */
static void settle(Document *document, bool stay) {
    size_t kept = 0;
    for (size_t i = 0; i < document->mark_count; i++) {
        if (document->marks[i].goes && !stay) continue;
        document->marks[kept] = document->marks[i];
        document->marks[kept++].goes = false;
    }
    document->mark_count = kept;
}

static bool removals(Document *document, const char **at, Number owner, bool *known) {
    for (Number id; number(at, &id); word(at, ",")) {
        Mark *mark = mark_of(document, id);
        *known = *known && mark && mark->owner == owner && !mark->goes;
        if (*known) mark->goes = true;
    }
    return word(at, "],\"add\":[");
}

static bool additions(Document *document, const char **at, Number owner, bool *inside) {
    for (Mark mark = {.id = document->next_id, .owner = owner}; word(at, "{"); word(at, ","), mark.id++) {
        if (!span(at, &mark.start, &mark.end) || !word(at, ",\"stick\":")) return false;
        if (!number(at, &mark.stick) || !word(at, "}")) return false;
        *inside = *inside && is_span(document, mark.start, mark.end) && mark.stick <= 3;
        document->marks = grown(document->marks, document->mark_count, &document->mark_room, sizeof mark);
        document->marks[document->mark_count++] = mark;
    }
    return word(at, "]") && closes(at);
}

static bool decorate(Document *document, const char **at) {
    size_t before = document->mark_count;
    bool known = true, inside = true;
    Number owner;
    bool reads = number(at, &owner) && word(at, ",\"remove\":[") && removals(document, at, owner, &known) &&
                 additions(document, at, owner, &inside);
    bool refused = !reads || !known || !inside;
    if (refused) document->mark_count = before;
    size_t added = document->mark_count - before;
    settle(document, refused);
    if (refused) return reads && printf(known ? "! range" : "! unknown");
    printf("ok %lu %zu", document->next_id, added);
    document->next_id += added;
    return true;
}

static bool deco(Document *document, const char **at) {
    Number id;
    if (!number(at, &id) || !closes(at)) return false;
    Mark *mark = mark_of(document, id);
    if (!mark) return printf("! unknown") > 0;
    return printf("ok %zu %zu %lu %lu", mark->start, mark->end, mark->stick, mark->owner) > 0;
}

/* By start, then end, then id. */
static int by_place(const void *one, const void *other) {
    const Mark *a = one, *b = other;
    if (a->start != b->start) return a->start < b->start ? -1 : 1;
    if (a->end != b->end) return a->end < b->end ? -1 : 1;
    return a->id < b->id ? -1 : a->id > b->id;
}

/* The marks that share a unit with the span or touch it. */
static bool decos(Document *document, const char **at) {
    size_t start, end, count = 0;
    if (!span(at, &start, &end) || !closes(at)) return false;
    if (!is_span(document, start, end)) return refuse_range();
    Mark *met = malloc((document->mark_count + 1) * sizeof *met);
    if (!met) fail("no memory");
    for (const Mark *m = document->marks; m < document->marks + document->mark_count; m++)
        if (m->start <= end && m->end >= start) met[count++] = *m;
    qsort(met, count, sizeof *met, by_place);
    printf("ok");
    for (size_t i = 0; i < count; i++) printf(" %lu %zu %zu", met[i].id, met[i].start, met[i].end);
    free(met);
    return true;
}

/* ---- the text and its history */

static void replace(Document *document, const Op *op) {
    Units *text = &document->text;
    size_t behind = op->start + op->text.length, length = text->length - op->end + behind;
    text->at = grown(text->at, length, &text->room, sizeof *text->at);
    if (behind != op->end) memmove(text->at + behind, text->at + op->end, 2 * (text->length - op->end));
    if (op->text.length) memcpy(text->at + op->start, op->text.at, 2 * op->text.length);
    text->length = length;
    text->has_returns |= op->text.has_returns;
    move_marks(document, op);
}

/* What was undone is dropped. */
static void keep(Document *document, Change change) {
    document->changes = grown(document->changes, document->done, &document->change_room, sizeof change);
    document->changes[document->done++] = change;
    document->total = document->done;
}

static void replace_and_keep(Document *document, const Op *op) {
    Units removed = {.length = op->end - op->start};
    removed.at = grown(NULL, removed.length, &removed.room, sizeof *removed.at);
    if (removed.length) memcpy(removed.at, document->text.at + op->start, 2 * removed.length);
    keep(document, (Change){op->start, removed, op->text, document->begins, false, MIXED});
    document->begins = false;
    replace(document, op);
}

/* Goes over to the other side of a change of kind. */
static void recast(Document *document, Change *change) {
    size_t *places = places_in(&change->removed, &document->text);
    for (Mark *m = document->marks; m < document->marks + document->mark_count; m++)
        m->start = places[m->start], m->end = places[m->end];
    free(places);
    Units text = document->text;
    Kind kind = document->kind;
    document->text = change->removed, document->kind = change->kind;
    change->removed = text, change->kind = kind;
}

static bool next_version(Document *document) {
    document->version++;
    return printf("ok %lu %zu %zu", document->version, document->text.length, line_count(&document->text)) > 0;
}

static bool open_text(Document *document, const char **at) {
    Units units;
    Kind of = MIXED;
    if (!text(at, &units)) return false;
    bool is_of_c = word(at, C_MARKS);
    if ((word(at, ",\"eol\":") && !kind(at, &of)) || !closes(at)) return false;
    units = normalized(units, of);
    *document =
        (Document){.text = units, .kind = of, .is_of_c = is_of_c, .next_id = 1, .next_snapshot = 1, .begins = true};
    return next_version(document);
}

/* A span as offsets or as positions. */
static bool span_or_range(const Units *text, const char **at, size_t *start, size_t *end) {
    if (!word(at, "\"range\":[")) return span(at, start, end);
    return offset_of(text, at, ",", start) && word(at, ",") && offset_of(text, at, ",", end) && word(at, "]");
}

/* The ops of an edit, each of which has room in `all`. */
static bool read_ops(const Units *text_of_now, const char **at, Op **all, size_t *count) {
    size_t room = 0;
    do {
        *all = grown(*all, *count, &room, sizeof(Op));
        Op *op = &(*all)[(*count)++];
        if (!word(at, "{") || !span_or_range(text_of_now, at, &op->start, &op->end)) return false;
        if (!word(at, ",\"text\":") || !text(at, &op->text) || !word(at, "}")) return false;
    } while (word(at, ","));
    return word(at, "]") && closes(at);
}

static bool edit(Document *document, const char **at) {
    Op *all = NULL;
    size_t count = 0;
    if (!read_ops(&document->text, at, &all, &count)) return false;
    for (size_t i = 0; i < count; i++) {
        if (!is_span(document, all[i].start, all[i].end)) return refuse_range();
        all[i].text = normalized(all[i].text, document->kind);
        if (i > 0 && all[i].start < all[i - 1].end) fail("the ops of an edit do not rise");
    }
    for (size_t i = count; i-- > 0;) replace_and_keep(document, &all[i]);
    free(all);
    return next_version(document);
}

static bool eol(Document *document, const char **at) {
    Kind of;
    if (!kind(at, &of) || !closes(at)) return false;
    if (of == document->kind) return printf("ok none") > 0;
    keep(document, (Change){.removed = normalized(document->text, of), .kind = of, .begins = true, .is_of_kind = true});
    recast(document, &document->changes[document->done - 1]);
    document->begins = true;
    return next_version(document);
}

static bool undo(Document *document, const char **at) {
    if (!closes(at)) return false;
    if (document->done == 0) return printf("ok none") > 0;
    Change *change;
    do {
        change = &document->changes[--document->done];
        if (change->is_of_kind) recast(document, change);
        else replace(document, &(Op){change->start, change->start + change->added.length, change->removed});
    } while (!change->begins);
    document->begins = true;
    return next_version(document);
}

static bool redo(Document *document, const char **at) {
    if (!closes(at)) return false;
    if (document->done == document->total) return printf("ok none") > 0;
    do {
        Change *change = &document->changes[document->done++];
        if (change->is_of_kind) recast(document, change);
        else replace(document, &(Op){change->start, change->start + change->removed.length, change->added});
    } while (document->done < document->total && !document->changes[document->done].begins);
    return next_version(document);
}

static bool stop(Document *document, const char **at) {
    if (!closes(at)) return false;
    document->begins = true;
    return printf("ok") > 0;
}

/* ---- a search */

/* Where these units stand from this place on, NOWHERE where they do not: their bytes, which begin at an even one. */
static size_t next_of(const Units *text, const Units *sought, size_t from) {
    const char *first = (const char *)text->at, *end = first + 2 * text->length, *at = first + 2 * from;
    while ((at = memmem(at, end - at, sought->at, 2 * sought->length)) && (at - first) % 2 != 0) at++;
    return at ? (size_t)(at - first) / 2 : NOWHERE;
}

/* Whether they stand between two places from `start` on, which becomes the first of these. */
static bool finds(const Document *document, const Units *sought, size_t *start) {
    while ((*start = next_of(&document->text, sought, *start)) != NOWHERE) {
        if (is_span(document, *start, *start + sought->length)) return true;
        ++*start;
    }
    return false;
}

static bool find(Document *document, const char **at) {
    Units sought;
    if (!text(at, &sought) || !closes(at) || sought.length == 0) return false;
    printf("ok");
    for (size_t start = 0; finds(document, &sought, &start); start += sought.length)
        printf(" %zu %zu", start, start + sought.length);
    free(sought.at);
    return true;
}

/* An op for each span that is found, the last of which is carried out first. */
static bool replace_all(Document *document, const char **at) {
    Units sought, new;
    if (!text(at, &sought) || !word(at, ",\"text\":") || !text(at, &new) || !closes(at) || sought.length == 0) return false;
    new = normalized(new, document->kind);
    Op *all = NULL;
    size_t count = 0, room = 0;
    for (size_t start = 0; finds(document, &sought, &start); start += sought.length) {
        all = grown(all, count, &room, sizeof *all);
        all[count++] = (Op){start, start + sought.length, new};
    }
    free(sought.at);
    if (count == 0) return printf("ok none") > 0;
    document->begins = true;
    while (count-- > 0) replace_and_keep(document, &all[count]);
    document->begins = true;
    free(all);
    return next_version(document);
}

/* ---- snapshots: none is read */

static bool snapshot(Document *document, const char **at) {
    if (!closes(at)) return false;
    Number id = document->next_snapshot++;
    if (id > MOST_SNAPSHOTS) fail("a script has more snapshots than the table");
    size_t bytes = 2 * document->text.length;
    uint16_t *kept = malloc(bytes + 1);
    if (!kept) fail("no memory");
    document->snapshots[id - 1] = memcpy(kept, document->text.at, bytes);
    return printf("ok %lu", id) > 0;
}

static bool close_snapshot(Document *document, const char **at) {
    Number id;
    if (!number(at, &id) || !closes(at)) return false;
    if (id == 0 || id >= document->next_snapshot || !document->snapshots[id - 1]) return printf("! unknown") > 0;
    free(document->snapshots[id - 1]);
    document->snapshots[id - 1] = NULL;
    return printf("ok") > 0;
}

/* ---- questions about places */

static bool size(Document *document, const char **at) {
    if (!closes(at)) return false;
    return printf("ok %zu %zu", document->text.length, line_count(&document->text)) > 0;
}

static bool line(Document *document, const char **at) {
    Number n;
    size_t start;
    if (!number(at, &n) || !closes(at)) return false;
    if (!line_start(&document->text, n, &start)) return refuse_range();
    printf("ok \"");
    for (size_t end = line_end(&document->text, start); start < end; start++) putchar(document->text.at[start]);
    return putchar('"') == '"';
}

static bool position(Document *document, const char **at) {
    Number offset;
    if (!number(at, &offset) || !closes(at)) return false;
    if (!is_place(&document->text, document->kind, offset)) return refuse_range();
    size_t lines = 1, start = 0;
    for (size_t i = 0; i < offset; i++)
        if (ends_break(&document->text, i)) lines++, start = i + 1;
    return printf("ok %zu %zu", lines, offset - start + 1) > 0;
}

/* A position as the fields of a question. */
static bool place(const Document *document, const char **at, size_t *offset) {
    return offset_of(&document->text, at, ",\"col\":", offset) && closes(at);
}

static bool offset(Document *document, const char **at) {
    size_t found;
    if (!place(document, at, &found)) return false;
    return found == NOWHERE ? refuse_range() : printf("ok %zu", found) > 0;
}

/* ---- brackets */

/* Twice the kind and one, and one more for a closing bracket; 0 for what is none. */
static const unsigned char CODES['}' + 1] = {['('] = 1, [')'] = 2, ['['] = 3, [']'] = 4, ['{'] = 5, ['}'] = 6};

static void close_bracket(Bracket *all, size_t here, const size_t *stack, size_t *open) {
    for (size_t depth = *open; depth-- > 0;) {
        Bracket *opener = &all[stack[depth]];
        if (opener->kind != all[here].kind) continue;
        opener->status = 'o', opener->partner = here;
        all[here].status = 'c', all[here].partner = stack[depth];
        *open = depth;
        break;
    }
    all[here].level = *open;
}

static bool stands(const Units *text, size_t at, const char *mark) {
    return at + 1 < text->length && text->at[at] == mark[0] && text->at[at + 1] == mark[1];
}

/* What a place lies in, by the marks of C. A string is named by its quote. */
enum { CODE = 0, LINE_COMMENT = '/', BLOCK_COMMENT = '*' };

static size_t hidden_in_code(const Units *text, size_t at, uint16_t *within) {
    if (stands(text, at, "//") || stands(text, at, "/*")) return *within = text->at[at + 1], 2;
    if (text->at[at] != '"' && text->at[at] != '\'') return 0;
    return *within = text->at[at], 1;
}

static size_t hidden_in_block(const Units *text, size_t at, uint16_t *within) {
    return stands(text, at, "*/") ? *within = CODE, 2 : 1;
}

static size_t hidden_in_string(const Units *text, size_t at, uint16_t *within) {
    uint16_t unit = text->at[at];
    if (unit == '\\') return at + 1 < text->length && !is_of_break(text->at[at + 1]) ? 2 : 1;
    if (unit == *within) *within = CODE;
    return 1;
}

/* How many units from this place on are no code, and what the place behind them lies in. A break is code. */
static size_t hidden(const Units *text, size_t at, uint16_t *within) {
    if (is_of_break(text->at[at])) return *within = *within == BLOCK_COMMENT ? BLOCK_COMMENT : CODE, 0;
    switch (*within) {
    case CODE: return hidden_in_code(text, at, within);
    case LINE_COMMENT: return 1;
    case BLOCK_COMMENT: return hidden_in_block(text, at, within);
    default: return hidden_in_string(text, at, within);
    }
}

static void fold(Document *document) {
    size_t stack[MOST_OPEN], open = 0, line = 1, start = 0, here = 0, passed;
    uint16_t within = CODE;
    for (size_t at = 0; at < document->text.length; at++) {
        uint16_t unit = document->text.at[at];
        if (ends_break(&document->text, at)) line++, start = at + 1;
        if (document->is_of_c && (passed = hidden(&document->text, at, &within)) > 0) {
            at += passed - 1;
            continue;
        }
        int code = unit < sizeof CODES ? CODES[unit] : 0;
        bool opens = code % 2 == 1;
        if (code == 0 || (opens && open == MOST_OPEN)) continue;
        document->brackets = grown(document->brackets, here, &document->bracket_room, sizeof(Bracket));
        document->brackets[here] = (Bracket){at, line, at - start + 1, open, 0, (code - 1) / 2, opens ? 'u' : 'x'};
        if (opens) stack[open++] = here;
        else close_bracket(document->brackets, here, stack, &open);
        here++;
    }
    document->bracket_count = here;
}

static bool brackets(Document *document, const char **at) {
    Number from, to;
    if (!number(at, &from) || !word(at, ",\"to\":") || !number(at, &to) || !closes(at)) return false;
    if (from == 0 || from > to || to > line_count(&document->text)) return refuse_range();
    fold(document);
    printf("ok");
    for (const Bracket *b = document->brackets; b < document->brackets + document->bracket_count; b++)
        if (from <= b->line && b->line <= to)
            printf(" %zu %zu 1 %d %c %zu", b->line, b->col, b->kind, b->status, b->level);
    return true;
}

static bool match(Document *document, const char **at) {
    size_t offset;
    if (!place(document, at, &offset)) return false;
    if (offset == NOWHERE) return refuse_range();
    fold(document);
    const Bracket *all = document->brackets, *found = all, *end = all + document->bracket_count;
    while (found < end && found->at < offset) found++;
    bool is_paired = found < end && found->at == offset && (found->status == 'o' || found->status == 'c');
    if (!is_paired) return printf("ok none") > 0;
    return printf("ok %zu %zu 1", all[found->partner].line, all[found->partner].col) > 0;
}

static bool level(Document *document, const char **at) {
    size_t offset, open = 0;
    if (!place(document, at, &offset)) return false;
    if (offset == NOWHERE) return refuse_range();
    fold(document);
    for (size_t i = 0; i < document->bracket_count && document->brackets[i].at < offset; i++) {
        const Bracket *b = &document->brackets[i];
        open = b->level + (b->status == 'o' || b->status == 'u');
    }
    return printf("ok %zu", open) > 0;
}

/* ---- a mirror: no line of it is asked for */

static Units copied(Units units) {
    Units copy = {.at = malloc(2 * units.length + 1), .length = units.length};
    if (!copy.at) fail("no memory");
    memcpy(copy.at, units.at, 2 * units.length);
    return copy;
}

static bool mirror(Document *document, const char **at) {
    if (!closes(at)) return false;
    free(document->mirror.at);
    document->mirror = copied(document->text);
    document->mirror_version = document->version;
    return printf("ok %lu", document->version) > 0;
}

static bool send_event(Document *document, const char **at) {
    if (!closes(at)) return false;
    if (document->version == 1) return printf("ok none") > 0;
    document->sent = grown(document->sent, document->sent_count, &document->sent_room, sizeof(Event));
    document->sent[document->sent_count++] = (Event){document->version - 1, copied(document->text)};
    return printf("ok %zu %lu", document->sent_count, document->version - 1) > 0;
}

static bool deliver(Document *document, const char **at) {
    Number n;
    if (!number(at, &n) || !closes(at)) return false;
    if (!document->mirror_version || n == 0 || n > document->sent_count) return printf("! unknown") > 0;
    const Event *event = &document->sent[n - 1];
    Number have = document->mirror_version;
    if (event->from < have) return printf("ok old") > 0;
    if (event->from > have) return printf("! gap %lu %lu", have, event->from) > 0;
    free(document->mirror.at);
    document->mirror = copied(event->after);
    document->mirror_version = have + 1;
    return printf("ok %lu %zu %zu", have + 1, document->mirror.length, line_count(&document->mirror)) > 0;
}

/* ---- the loop */

/* What a line begins with, and what reads the rest and answers it: false where the rest is not as wanted. */
static const struct { const char *head; bool (*answer)(Document *, const char **); } COMMANDS[] = {
    {"{\"cmd\":\"edit\",\"ops\":[", edit},        {"{\"cmd\":\"position\",\"offset\":", position},
    {"{\"cmd\":\"offset\",\"line\":", offset},    {"{\"cmd\":\"line\",\"n\":", line},
    {"{\"cmd\":\"brackets\",\"from\":", brackets}, {"{\"cmd\":\"match\",\"line\":", match},
    {"{\"cmd\":\"level\",\"line\":", level},      {"{\"cmd\":\"decorate\",\"owner\":", decorate},
    {"{\"cmd\":\"deco\",\"id\":", deco},          {"{\"cmd\":\"open\",\"text\":", open_text},
    {"{\"cmd\":\"undo\"", undo},                  {"{\"cmd\":\"redo\"", redo},
    {"{\"cmd\":\"stop\"", stop},                  {"{\"cmd\":\"size\"", size},
    {"{\"cmd\":\"decos\",", decos},              {"{\"cmd\":\"snapshot\"", snapshot},
    {"{\"cmd\":\"close\",\"id\":", close_snapshot}, {"{\"cmd\":\"eol\",\"kind\":", eol},
    {"{\"cmd\":\"mirror\"", mirror},              {"{\"cmd\":\"send\"", send_event},
    {"{\"cmd\":\"deliver\",\"n\":", deliver},       {"{\"cmd\":\"find\",\"text\":", find},
    {"{\"cmd\":\"replace\",\"find\":", replace_all},
};

static bool answer(Document *document, const char *line) {
    for (size_t i = 0; i < sizeof COMMANDS / sizeof *COMMANDS; i++) {
        const char *at = line;
        if (word(&at, COMMANDS[i].head)) return COMMANDS[i].answer(document, &at);
    }
    return false;
}

int main(void) {
    Document document = {.version = 1, .next_id = 1, .next_snapshot = 1, .begins = true};
    char *line = NULL;
    size_t room = 0;
    setvbuf(stdin, NULL, _IOFBF, BUFFER_BYTES);
    setvbuf(stdout, NULL, _IOFBF, BUFFER_BYTES);
    while (getline(&line, &room, stdin) > 0) {
        if (!answer(&document, line)) printf("! syntax");
        putchar('\n');
        if (fflush(stdout) != 0) fail("a write failed");
    }
    return 0;
}
