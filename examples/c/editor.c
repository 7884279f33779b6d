#include "editor.h"

#include <stdlib.h>
#include <string.h>

enum { OWNER = 1, STICKS_NOWHERE = 1, PART = 4096 };

void must(uint32_t status) {
  if (status == TM_OK || status == TM_SHORT) return;
  fprintf(stderr, "editor: %s\n", tm_message(status));
  exit(1);
}

void *room(uint64_t count, size_t size) {
  void *at = calloc(count + 1, size);
  if (at == NULL) must(TM_MEMORY);
  return at;
}

void editor_start(editor *e) {
  *e = (editor){0};
  must(tm_make(&e->session));
}

void editor_end(editor *e) {
  for (uint64_t file = 0; file < e->files; file++) {
    for (uint64_t at = 0; at < e->screens[file].count; at++) free(e->screens[file].lines[at].bytes);
    free(e->screens[file].lines);
  }
  tm_free(&e->session);
}

/* ---- The screen */

line editor_line(editor *e, uint64_t file, uint64_t number) {
  line it = {NULL, 0};
  must(tm_line_utf8(&e->session, file, number, NULL, 0, &it.length));
  it.bytes = room(it.length, 1);
  must(tm_line_utf8(&e->session, file, number, it.bytes, it.length, &it.length));
  return it;
}

/* Reads the lines from `first` to `last`. The screen has those before and behind them. */
static void draw(editor *e, uint64_t file, uint64_t first, uint64_t last) {
  screen *s = &e->screens[file], old = *s;
  must(tm_line_count(&e->session, file, &s->count));
  s->lines = room(s->count, sizeof(line));
  uint64_t behind = old.count - (s->count - last);
  for (uint64_t at = 0; at < first - 1; at++) s->lines[at] = old.lines[at];
  for (uint64_t at = first - 1; at < behind; at++) free(old.lines[at].bytes);
  for (uint64_t at = first - 1; at < last; at++) s->lines[at] = editor_line(e, file, at + 1);
  for (uint64_t at = last; at < s->count; at++) s->lines[at] = old.lines[behind + at - last];
  free(old.lines);
}

/* The edits of the last change are told one after another. Together they changed what stands between two offsets. */
static void follow(editor *e, uint64_t file) {
  uint64_t low = UINT64_MAX, high = 0;
  tm_change change;
  tm_place first, last;
  uint32_t status;
  while ((status = tm_next_change(&e->session, file, &change)) == TM_OK) {
    high = change.start + change.units + (high > change.end ? high - change.end : 0);
    low = change.start < low ? change.start : low;
  }
  if (status != TM_NOTHING) must(status);
  if (low > high) return; /* other line endings, of which none differed */
  must(tm_position(&e->session, file, low, TM_UTF16, &first));
  must(tm_position(&e->session, file, high, TM_UTF16, &last));
  draw(e, file, first.line, last.line);
}

void editor_follow(editor *e) {
  for (uint64_t file = 0; file < e->files; file++) {
    uint64_t version, alternative;
    must(tm_versions(&e->session, file, &version, &alternative));
    if (version != e->screens[file].version) follow(e, file);
    e->screens[file].version = version;
  }
}

/* ---- Files */

/* That of all lines, or TM_MIXED where they differ. */
static uint32_t ending_of(const char *bytes, size_t length) {
  size_t feeds = 0, returns = 0, pairs = 0;
  for (size_t at = 0; at < length; at++) {
    feeds += bytes[at] == '\n';
    returns += bytes[at] == '\r';
    pairs += at > 0 && bytes[at - 1] == '\r' && bytes[at] == '\n';
  }
  return returns == 0 ? TM_LF : feeds == pairs && returns == pairs ? TM_CRLF : TM_MIXED;
}

uint32_t editor_open(editor *e, const char *bytes, size_t length) {
  const tm_opening opening = {.utf8 = bytes, .length = length, .ending = ending_of(bytes, length), .hiding = &tm_hiding_c};
  uint64_t file = e->files, lines;
  if (file == MOST_FILES) return TM_LIMIT;
  uint32_t status = tm_open(&e->session, file, &opening);
  if (status != TM_OK) return status;
  must(tm_line_count(&e->session, file, &lines));
  draw(e, file, 1, lines);
  e->screens[file].version = 1;
  e->files++;
  return TM_OK;
}

void editor_write(editor *e, uint64_t file, FILE *out) {
  char part[PART];
  uint64_t offset = 0, count;
  do {
    must(tm_read_into_utf8(&e->session, file, &offset, part, PART, &count));
    fwrite(part, 1, count, out);
  } while (count > 0);
}

/* ---- What a user does */

uint32_t editor_type(editor *e, uint64_t file, tm_place from, tm_place to, const char *text) {
  return tm_edit_at_utf8(&e->session, file, from, to, TM_UTF8, text, strlen(text));
}

static tm_found *find(editor *e, uint64_t file, const char *text, uint64_t *count) {
  const tm_search search = {.utf8 = text, .length = strlen(text)};
  must(tm_find(&e->session, file, &search, NULL, 0, count));
  tm_found *found = room(*count, sizeof *found);
  must(tm_find(&e->session, file, &search, found, *count, count));
  return found;
}

void editor_mark(editor *e, uint64_t file, const char *text) {
  marks *m = &e->marked[file];
  uint64_t count, *old = room(m->count, sizeof *old);
  tm_found *found = find(e, file, text, &count);
  tm_new_decoration *new = room(count, sizeof *new);
  for (uint64_t at = 0; at < m->count; at++) old[at] = m->first + at;
  for (uint64_t at = 0; at < count; at++)
    new[at] = (tm_new_decoration){.start = found[at].start, .end = found[at].end, .stick = STICKS_NOWHERE};
  must(tm_decorate(&e->session, file, OWNER, old, m->count, new, count, &m->first));
  m->count = count;
  free(old);
  free(found);
  free(new);
}

/* An edit for each place of the old name in all files. Each puts in `length` bytes. */
static tm_op *edits_of(editor *e, const char *old, uint64_t length, uint64_t *count) {
  tm_op *edits = NULL;
  for (uint64_t file = 0, more; file < e->files; file++) {
    tm_found *found = find(e, file, old, &more);
    edits = realloc(edits, (*count + more + 1) * sizeof *edits);
    if (edits == NULL) must(TM_MEMORY);
    for (uint64_t at = 0; at < more; at++)
      edits[(*count)++] = (tm_op){.doc = file, .start = found[at].start, .end = found[at].end, .units = length};
    free(found);
  }
  return edits;
}

/* The edits of one file would else be part of a step with those before and after them. */
static void stop(editor *e) {
  for (uint64_t file = 0; file < e->files; file++) must(tm_stop(&e->session, file));
}

uint32_t editor_rename(editor *e, const char *old, const char *new) {
  uint64_t length = strlen(new), count = 0;
  tm_op *edits = edits_of(e, old, length, &count);
  char *text = room(count * length, 1);
  for (uint64_t at = 0; at < count; at++) memcpy(text + at * length, new, length);
  if (count > 0) stop(e);
  uint32_t status = count == 0 ? TM_NOTHING : tm_joint_utf8(&e->session, edits, count, text, count * length);
  if (status == TM_OK) stop(e);
  free(edits);
  free(text);
  return status;
}
