/* An editor without keys: shows files, or tests its core.
 *
 * editor OLD NEW FILE ..      changes a name in the files, shows how each begins, and writes them
 * editor --test SEED STEPS    makes random steps, and after each compares the screens with the documents */
#include "editor.h"

#include <inttypes.h>
#include <stdlib.h>
#include <string.h>

/* ---- A terminal */

enum { SHOWN = 12, PAIRED = 1, COLOURS = 6, RED = 31, REVERSED = 7 };

static void show_marks(editor *e, uint64_t file) {
  const marks *m = &e->marked[file];
  for (uint64_t id = m->first; id < m->first + m->count; id++) {
    tm_decoration mark;
    tm_place place;
    must(tm_deco(&e->session, file, id, &mark));
    must(tm_position(&e->session, file, mark.start, TM_UTF8, &place));
    printf("marked: line %" PRIu64 ", byte %" PRIu64 "\n", place.line, place.column);
  }
}

/* The first lines, with each bracket outside comments and strings in the colour of its level, and the marks. */
static void show(editor *e, uint64_t file) {
  const screen *s = &e->screens[file];
  uint64_t last = s->count < SHOWN ? s->count : SHOWN, count;
  must(tm_brackets(&e->session, file, 1, last, TM_UTF8, NULL, 0, &count));
  tm_bracket *brackets = room(count, sizeof *brackets), *next = brackets;
  must(tm_brackets(&e->session, file, 1, last, TM_UTF8, brackets, count, &count));
  for (uint64_t number = 1; number <= last; number++) {
    const char *bytes = s->lines[number - 1].bytes, *rest = bytes;
    for (; next < brackets + count && next->line == number; next++) {
      const char *at = bytes + next->column - 1;
      int colour = next->state <= PAIRED ? RED + (int)(next->level % COLOURS) : REVERSED;
      printf("%.*s\x1b[%dm%.*s\x1b[m", (int)(at - rest), rest, colour, (int)next->length, at);
      rest = at + next->length;
    }
    puts(rest);
  }
  free(brackets);
  show_marks(e, file);
}

/* ---- Files */

/* The bytes of a file; null where it cannot be read. */
static char *read_file(const char *path, size_t *length) {
  FILE *file = fopen(path, "rb");
  if (file == NULL) return NULL;
  long size = fseek(file, 0, SEEK_END) == 0 ? ftell(file) : -1;
  rewind(file);
  char *bytes = size < 0 ? NULL : room((uint64_t)size, 1);
  *length = size < 0 ? 0 : fread(bytes, 1, (size_t)size, file);
  fclose(file);
  return bytes;
}

static int fails(const char *path, const char *why) {
  fprintf(stderr, "editor: %s: %s\n", path, why);
  return 1;
}

static int open_file(editor *e, const char *path) {
  size_t length;
  char *bytes = read_file(path, &length);
  if (bytes == NULL) return fails(path, "cannot be read");
  uint32_t status = editor_open(e, bytes, length);
  free(bytes);
  if (status == TM_OK) return 0;
  if (status == TM_ENCODING) fprintf(stderr, "editor: byte %" PRIu64 " of the file is at fault\n", e->session.fault.index);
  return fails(path, tm_message(status));
}

static int write_file(editor *e, uint64_t file, const char *path) {
  FILE *out = fopen(path, "wb");
  if (out == NULL) return fails(path, "cannot be written");
  editor_write(e, file, out);
  int failed = ferror(out);
  return fclose(out) == 0 && !failed ? 0 : fails(path, "cannot be written");
}

static int rename_in(editor *e, const char *old, const char *new, char **paths, uint64_t count) {
  for (uint64_t file = 0; file < count; file++) {
    if (open_file(e, paths[file]) != 0) return 1;
    editor_mark(e, file, old);
  }
  uint32_t status = editor_rename(e, old, new);
  if (status != TM_OK) return fails(old, tm_message(status));
  editor_follow(e);
  for (uint64_t file = 0; file < count; file++) {
    printf("%s\n", paths[file]);
    show(e, file);
    if (write_file(e, file, paths[file]) != 0) return 1;
  }
  return 0;
}

/* ---- The test */

static uint64_t below(uint64_t *random, uint64_t limit) {
  *random = *random * 6364136223846793005u + 1442695040888963407u;
  return (*random >> 33) % limit;
}

/* Perhaps one inside a character, which is refused. */
static tm_place random_place(const screen *s, uint64_t *random) {
  uint64_t line = below(random, s->count);
  return (tm_place){.line = line + 1, .column = below(random, s->lines[line].length + 1) + 1};
}

static uint32_t type(editor *e, uint64_t file, uint64_t *random) {
  static const char *const texts[] = {"", "", "old", "a\r\nb", "\n", "\r", "{\xC3\xA9", "\xF0\x9F\x98\x80)", "/*", "*/ new //"};
  tm_place from = random_place(&e->screens[file], random), to = from;
  uint64_t lines = e->screens[file].count;
  to.column += below(random, 3);
  if (lines > 20) to = (tm_place){.line = lines, .column = 1};
  return editor_type(e, file, from, to, texts[below(random, sizeof texts / sizeof *texts)]);
}

static uint32_t random_step(editor *e, uint64_t *random) {
  uint64_t file = below(random, e->files);
  switch (below(random, 16)) {
    case 0:
    case 1: return tm_undo(&e->session, file);
    case 2: return tm_redo(&e->session, file);
    case 3: return tm_stop(&e->session, file);
    case 4: return tm_set_eol(&e->session, file, below(random, 2) == 0 ? TM_LF : TM_CRLF);
    case 5: return editor_rename(e, "old", "new");
    case 6: return editor_rename(e, "new", "older");
    case 7: return editor_mark(e, file, "new"), TM_OK;
    default: return type(e, file, random);
  }
}

/* Whether the screen has the lines of the document. */
static int is_drawn(editor *e, uint64_t file) {
  const screen *s = &e->screens[file];
  uint64_t count;
  must(tm_line_count(&e->session, file, &count));
  int same = count == s->count;
  for (uint64_t at = 0; same && at < count; at++) {
    line it = editor_line(e, file, at + 1);
    same = it.length == s->lines[at].length && memcmp(it.bytes, s->lines[at].bytes, it.length) == 0;
    free(it.bytes);
  }
  return same;
}

static int test(editor *e, uint64_t random, uint64_t steps) {
  static const char *const texts[] = {"old(\n)\n", "f(old)\r\n// old\r\n", "a\rb\nc\r\nd"};
  for (int at = 0; at < 3; at++) must(editor_open(e, texts[at], strlen(texts[at])));
  for (uint64_t step = 1; step <= steps; step++) {
    uint32_t status = random_step(e, &random);
    if (status != TM_NOTHING && status != TM_RANGE && status != TM_JOINT) must(status);
    editor_follow(e);
    for (uint64_t file = 0; file < e->files; file++) {
      if (is_drawn(e, file)) continue;
      fprintf(stderr, "editor: after step %" PRIu64 " the screen of file %" PRIu64 " is wrong\n", step, file);
      return 1;
    }
  }
  return 0;
}

int main(int argc, char **argv) {
  editor e;
  if (argc < 4 || argc - 3 > MOST_FILES) {
    fprintf(stderr, "editor: OLD NEW FILE .. or --test SEED STEPS is wanted\n");
    return 2;
  }
  editor_start(&e);
  int failed = strcmp(argv[1], "--test") == 0 ? test(&e, strtoull(argv[2], NULL, 10), strtoull(argv[3], NULL, 10))
                                              : rename_in(&e, argv[1], argv[2], argv + 3, (uint64_t)argc - 3);
  editor_end(&e);
  return failed;
}
