/* Makes the same calls again and again, each time with another request for memory refused. Ends with 0 where a refusal
 * leaves the documents as they were, the call then works, and no block of memory is left over. For glibc.
 *
 * refusals [EVERY]     refuses each request, or one of so many, which is enough where a checker makes it slow */
#include "textmodel.h"

#include <stdio.h>
#include <stdlib.h>
#include <string.h>

void *__libc_malloc(size_t);
void *__libc_realloc(void *, size_t);
void __libc_free(void *);

static long blocks;             /* how many the library has */
static long requests, refused;  /* how many it made, and the one that is refused, from 1 */
static int counting;

static int refuses(void) { return counting && ++requests == refused; }

void *malloc(size_t size) {
  void *at = refuses() ? NULL : __libc_malloc(size);
  blocks += at != NULL;
  return at;
}

void *realloc(void *old, size_t size) {
  void *at = refuses() ? NULL : __libc_realloc(old, size);
  blocks += at != NULL && old == NULL;
  return at;
}

void free(void *at) {
  blocks -= at != NULL;
  __libc_free(at);
}

/* ---- The calls, each on documents as the ones before left them */

enum { OTHER = 9 };

static uint32_t opened(tm_session *d) {
  static const tm_opening opening = {.utf16 = (const uint16_t *)u"f(x)\n[y]\n", .length = 9};
  return tm_open(d, 0, &opening);
}

static uint32_t opened_utf8(tm_session *d) {
  static const tm_opening opening = {
      .utf8 = "a{b}\nc(d)\n", .length = 10, .ending = TM_LF, .hiding = &tm_hiding_javascript};
  return tm_open(d, 0, &opening);
}

static uint32_t opened_with(tm_session *d) {
  static const tm_pair pairs[] = {{2, 2}, {1, 1}};
  const tm_opening opening = {
      .utf16 = u"<<a>>\n(b)", .length = 9, .ending = TM_CRLF, .pairs = pairs, .pair_count = 2, .brackets = u"<<>>()",
      .brackets_length = 6, .hiding = &tm_hiding_c};
  return tm_open(d, 0, &opening);
}

static uint32_t edited(tm_session *d) { return tm_edit(d, 0, 1, 2, u"[[(", 3); }

static uint32_t edited_utf8(tm_session *d) { return tm_edit_utf8(d, 0, 1, 2, "\xC3\xA9(", 3); }

static uint32_t edited_at(tm_session *d) {
  const tm_place from = {2, 1}, to = {2, 2};
  return tm_edit_at(d, 0, from, to, TM_UTF8, u"z\n(", 3);
}

static uint32_t edited_at_utf8(tm_session *d) {
  const tm_place from = {1, 1}, to = {1, 2};
  return tm_edit_at_utf8(d, 0, from, to, TM_UTF32, "[\xC3\xA9", 3);
}

static uint32_t many_ops(tm_session *d) {
  static const tm_op ops[] = {{0, 0, 1, 2, false}, {0, 3, 3, 1, true}, {0, 6, 7, 0, false}};
  return tm_joint(d, ops, 3, u"pq)", 3);
}

static uint32_t long_text(tm_session *d) {
  static uint16_t text[3000];
  for (size_t at = 0; at < 3000; at++) text[at] = at % 50 == 49 ? '\n' : "(ab)[c]"[at % 7];
  return tm_edit(d, 0, 4, 4, text, 3000);
}

static uint32_t undone(tm_session *d) { return tm_undo(d, 0); }
static uint32_t redone(tm_session *d) { return tm_redo(d, 0); }
static uint32_t other_endings(tm_session *d) { return tm_set_eol(d, 0, TM_CRLF); }
static uint32_t line_feeds(tm_session *d) { return tm_set_eol(d, 0, TM_LF); }

static uint32_t decorated(tm_session *d) {
  static const tm_new_decoration marks[] = {{0, 2, 0, false}, {3, 3, 1, true}, {1, 9, 3, false}};
  uint64_t first;
  return tm_decorate(d, 0, 4, NULL, 0, marks, 3, &first);
}

static uint32_t all_decorations(tm_session *d) {
  tm_decoration out[8];
  uint64_t count;
  return tm_decos(d, 0, 0, 9, 0, true, out, 8, &count);
}

/* Two decorations that are to be added, of which the second has no span. It is told, or memory was short for that. */
static uint32_t not_decorated(tm_session *d) {
  static const tm_new_decoration marks[] = {{0, 0, 0, false}, {2, 1, 0, false}};
  uint64_t first;
  uint32_t status = tm_decorate(d, 0, 4, NULL, 0, marks, 2, &first);
  if (status != TM_RANGE) return status;
  return d->fault.index == 1 ? TM_OK : d->fault.index == TM_NO_INDEX ? TM_MEMORY : status;
}

/* The same of edits: the last one overlaps the first. */
static uint32_t not_joined(tm_session *d) {
  static const tm_op ops[] = {{0, 0, 2, 0, false}, {0, 3, 3, 0, false}, {0, 1, 2, 0, false}};
  uint32_t status = tm_joint(d, ops, 3, NULL, 0);
  if (status != TM_OVERLAP) return status;
  return d->fault.index == 2 ? TM_OK : d->fault.index == TM_NO_INDEX ? TM_MEMORY : status;
}

static uint32_t brackets_in(tm_session *d, uint32_t encoding) {
  tm_bracket out[32];
  uint64_t count;
  return tm_brackets(d, 0, 1, 3, encoding, out, 32, &count);
}

static uint32_t all_brackets(tm_session *d) { return brackets_in(d, TM_UTF16); }
static uint32_t brackets_utf8(tm_session *d) { return brackets_in(d, TM_UTF8); }

static uint32_t matched_in(tm_session *d, uint32_t encoding) {
  tm_partner partner;
  return tm_match(d, 0, 2, 1, encoding, &partner) == TM_MEMORY ? TM_MEMORY : TM_OK;
}

static uint32_t matched(tm_session *d) { return matched_in(d, TM_UTF16); }
static uint32_t matched_utf8(tm_session *d) { return matched_in(d, TM_UTF8); }

static uint32_t level_in(tm_session *d, uint32_t encoding) {
  uint64_t open;
  return tm_level(d, 0, 2, 2, encoding, &open);
}

static uint32_t level(tm_session *d) { return level_in(d, TM_UTF16); }
static uint32_t level_utf32(tm_session *d) { return level_in(d, TM_UTF32); }

static uint32_t stops_in(tm_session *d, uint32_t encoding) {
  uint64_t out[128], count;
  return tm_stops(d, 0, 1, encoding, out, 128, &count);
}

static uint32_t cursor_stops(tm_session *d) { return stops_in(d, TM_UTF16); }
static uint32_t stops_utf8(tm_session *d) { return stops_in(d, TM_UTF8); }

static uint32_t texts_utf8(tm_session *d) {
  char out[256];
  uint64_t offset = 0, count;
  uint32_t status = tm_line_utf8(d, 0, 1, out, 256, &count);
  if (status == TM_OK) status = tm_value_utf8(d, 0, 0, 3, out, 256, &count);
  return status == TM_OK ? tm_read_into_utf8(d, 0, &offset, out, 256, &count) : status;
}

static uint32_t found(tm_session *d) {
  static const tm_search b = {.utf16 = (const uint16_t *)u"b", .length = 1};
  tm_found out[64];
  uint64_t count;
  return tm_find(d, 0, &b, out, 64, &count);
}

static uint32_t found_utf8(tm_session *d) {
  static const tm_search b = {.utf8 = "b", .length = 1, .from = UINT64_MAX, .back = true, .most = 3};
  tm_found out[3];
  uint64_t count;
  return tm_find(d, 0, &b, out, 3, &count);
}

static uint32_t all_replaced(tm_session *d) {
  uint64_t count;
  return tm_replace_all(d, 0, u"b", 1, u"(b]", 3, &count);
}

static uint32_t all_replaced_utf8(tm_session *d) {
  uint64_t count;
  return tm_replace_all_utf8(d, 0, "b", 1, "(b]", 3, &count);
}

static uint32_t positions(tm_session *d) {
  tm_place place;
  uint64_t offset;
  uint32_t status = tm_position(d, 0, 1, TM_UTF8, &place);
  return status == TM_OK ? tm_offset(d, 0, place.line, place.column, TM_UTF32, &offset) : status;
}

static uint32_t snapshot(tm_session *d) {
  uint64_t id;
  return tm_snapshot(d, 0, &id);
}

static uint32_t answer(tm_session *d, const char *line) {
  char reply[64];
  uint64_t len, count;
  uint32_t status = tm_answer(d, line, strlen(line), &len);
  if (status == TM_OK) status = tm_reply(d, 0, reply, 64, &count);
  return status == TM_OK && memcmp(reply, "! memory", 8) == 0 ? TM_MEMORY : status;
}

static uint32_t answered(tm_session *d) { return answer(d, "{\"cmd\":\"edit\",\"ops\":[{\"at\":[1,2],\"text\":\"(x\"}]}"); }
static uint32_t opened_other(tm_session *d) {
  static const tm_opening opening = {.utf16 = (const uint16_t *)u"g(y)\n", .length = 5};
  return tm_open(d, OTHER, &opening);
}

static uint32_t opened_bytes(tm_session *d) {
  static const tm_opening opening = {.utf8 = "a{b}\nc(d)\n", .length = 10, .hiding = &tm_hiding_python};
  return tm_open(d, 0, &opening);
}

static uint32_t line_and_text(tm_session *d) {
  uint16_t out[256];
  uint64_t count;
  uint32_t status = tm_line(d, 0, 1, out, 256, &count);
  if (status == TM_OK) status = tm_read_into(d, 0, 0, out, 256, &count);
  return status == TM_OK ? tm_value(d, 0, 0, 3, out, 256, &count) : status;
}

/* Read from its start, in a document that was opened before. */
static uint32_t read_snapshot(tm_session *d) {
  uint16_t out[4];
  char bytes[12];
  uint64_t id, count;
  uint32_t status = tm_snapshot(d, 0, &id);
  if (status != TM_OK) return status;
  status = tm_read(d, 0, id, out, 4, &count);
  if (status == TM_OK && count > 0) status = tm_read_utf8(d, 0, id, bytes, 12, &count);
  if (status == TM_OK && count == 0) return TM_NOTHING;
  tm_close(d, 0, id);
  return status;
}

static uint32_t joined(tm_session *d) {
  static const tm_op ops[] = {{0, 0, 0, 2, false}, {0, 1, 1, 0, false}, {OTHER, 0, 1, 2, true}};
  return tm_joint(d, ops, 3, u"(x[y", 4);
}

static uint32_t joined_utf8(tm_session *d) {
  static const tm_op ops[] = {{OTHER, 0, 0, 3, false}, {0, 0, 0, 1, false}, {0, 1, 2, 0, false}};
  return tm_joint_utf8(d, ops, 3, "(\xC3\xA9[", 4);
}

static uint32_t mirror(tm_session *d) {
  uint64_t version;
  return tm_mirror(d, 0, &version);
}

static uint32_t sent(tm_session *d) {
  uint64_t number, from;
  return tm_send(d, 0, &number, &from);
}

static uint32_t delivered(tm_session *d) {
  tm_followed followed;
  return tm_deliver(d, 0, 1, &followed);
}

static uint32_t mirrored(tm_session *d) {
  uint16_t out[256];
  char bytes[256];
  uint64_t count;
  uint32_t status = tm_mirrored(d, 0, 1, out, 256, &count);
  return status == TM_OK ? tm_mirrored_utf8(d, 0, 1, bytes, 256, &count) : status;
}

/* All edits of the last change. Where one is refused, the next call tells it. */
static uint32_t changes(tm_session *d) {
  uint16_t out[256];
  char bytes[768];
  uint64_t count;
  tm_change change;
  uint32_t status;
  while ((status = tm_next_change(d, 0, &change)) == TM_OK) {
    status = tm_change_text(d, out, 256, &count);
    if (status == TM_OK) status = tm_change_text_utf8(d, bytes, 768, &count);
    if (status != TM_OK) return status;
  }
  return status == TM_NOTHING ? TM_OK : status;
}

static uint32_t (*const calls[])(tm_session *) = {
    opened,        edited,       edited_at,     many_ops,      decorated,    all_decorations, all_brackets,  matched,
    level,         snapshot,     long_text,     matched_utf8,  level_utf32,  undone,          redone,        undone,
    cursor_stops,  texts_utf8,   answered,      other_endings, all_decorations, brackets_utf8, opened_utf8,  stops_utf8,
    edited_utf8,   snapshot,     answered,      undone,        found,        all_replaced,    undone,        found_utf8,
    all_replaced_utf8, level,    undone,        opened_bytes,  line_and_text, changes,        read_snapshot, edited,
    changes,       edited_at_utf8, changes,     opened_other,  opened_with,  level,           mirror,        answered,
    sent,          delivered,    mirrored,      joined,        changes,      sent,            undone,        changes,
    redone,        changes,      joined_utf8,   changes,       undone,       not_joined,      not_decorated, positions,
    line_and_text, line_feeds,   changes,
};
enum { CALLS = sizeof calls / sizeof *calls };

/* ---- What the two documents are, as far as questions tell */

typedef struct state {
  uint64_t len, lines, version, alternative, marks;
  uint32_t kind, undo, redo;
  uint64_t text;     /* a sum over all units */
  tm_followed mirror; /* zeros where there is none */
  tm_decoration decorations[8];
} state;

typedef struct states {
  state one, other;
} states;

static state told_of(tm_session *d, uint64_t doc) {
  static uint16_t units[4000];
  state now;
  uint64_t count = 0;
  memset(&now, 0, sizeof now);
  tm_len(d, doc, &now.len);
  tm_line_count(d, doc, &now.lines);
  tm_versions(d, doc, &now.version, &now.alternative);
  tm_kind(d, doc, &now.kind);
  now.undo = tm_can_undo(d, doc);
  now.redo = tm_can_redo(d, doc);
  tm_value(d, doc, 0, now.len, units, 4000, &count);
  for (uint64_t at = 0; at < count; at++) now.text = now.text * 31 + units[at];
  tm_mirror_now(d, doc, &now.mirror);
  tm_decos(d, doc, 0, now.len, 0, true, now.decorations, 8, &now.marks);
  return now;
}

static states told(tm_session *d) {
  states now = {told_of(d, 0), told_of(d, OTHER)};
  return now;
}

static int same_state(const state *one, const state *other) {
  int equal = one->len == other->len && one->lines == other->lines && one->version == other->version
              && one->alternative == other->alternative && one->marks == other->marks && one->kind == other->kind
              && one->undo == other->undo && one->redo == other->redo && one->text == other->text
              && one->mirror.version == other->mirror.version && one->mirror.units == other->mirror.units
              && one->mirror.lines == other->mirror.lines;
  for (uint64_t at = 0; equal && at < one->marks; at++) {
    const tm_decoration *a = &one->decorations[at], *b = &other->decorations[at];
    equal = a->id == b->id && a->owner == b->owner && a->start == b->start && a->end == b->end;
  }
  return equal;
}

static int same(const states *before, const states *after) {
  return same_state(&before->one, &after->one) && same_state(&before->other, &after->other);
}

/* ---- Runs */

static int failed;

static void fails(const char *what, int call) {
  printf("request %ld refused, call %d: %s\n", refused, call, what);
  failed = 1;
}

static uint32_t counted(uint32_t (*call)(tm_session *), tm_session *d) {
  counting = 1;
  uint32_t status = call(d);
  counting = 0;
  return status;
}

/* One call, made again where memory was refused to it. Whether it was. */
static int one_call(tm_session *d, int number) {
  states before = told(d), after;
  uint32_t status = counted(calls[number], d);
  if (status == TM_OK) return 0;
  if (status != TM_MEMORY) fails("another status than wanted", number);
  after = told(d);
  if (!same(&before, &after)) fails("the document was changed", number);
  if (calls[number](d) != TM_OK) fails("it does not work afterwards", number);
  return 1;
}

/* All calls on one document, which is freed; how many wanted memory. */
static int run(long number, states *end) {
  tm_session d = {0};
  int wanted = 0;
  requests = 0;
  refused = number;
  if (counted(tm_make, &d) == TM_MEMORY) {
    wanted = 1;
    if (d.at != NULL || tm_make(&d) != TM_OK) fails("no document afterwards", -1);
  }
  for (int call = 0; call < CALLS; call++) wanted += one_call(&d, call);
  *end = told(&d);
  tm_free(&d);
  return wanted;
}

int main(int argc, char **argv) {
  states usual, end;
  long every = argc > 1 ? strtol(argv[1], NULL, 10) : 1, most, before, seen = 0;
  setvbuf(stdout, NULL, _IONBF, 0);
  run(0, &usual);
  most = requests;
  for (long number = 1; number <= most; number += every) {
    before = blocks;
    seen += run(number, &end);
    if (!same(&usual, &end)) fails("it ends with another document", CALLS);
    if (blocks != before) fails("memory is left over", CALLS);
  }
  if (seen == 0) fails("no call wanted memory", CALLS);
  return failed;
}
