/* Shows a source file with its brackets coloured by level, except those in comments and strings: colour_brackets FILE
 *
 * Brackets without a partner are red. The end of the file's name tells what comments and strings are. */
#include "files.h"

#include <string.h>

static const char *const by_level[] = {"\x1b[33m", "\x1b[35m", "\x1b[36m"};
static const char alone[] = "\x1b[1;31m", plain[] = "\x1b[0m";

static const tm_hiding *hiding_of(const char *path) {
  const char *end = strrchr(path, '.');
  if (end == NULL) return NULL;
  if (strcmp(end, ".py") == 0) return &tm_hiding_python;
  if (strcmp(end, ".sh") == 0) return &tm_hiding_shell;
  if (strcmp(end, ".rs") == 0) return &tm_hiding_rust;
  if (strcmp(end, ".js") == 0) return &tm_hiding_javascript;
  return &tm_hiding_c;
}

static const char *colour_of(const tm_bracket *bracket) {
  if (bracket->state >= 2) return alone;
  return by_level[bracket->level % (sizeof by_level / sizeof *by_level)];
}

/* Columns and lengths count bytes here, as `line` does. */
static void show(const char *line, const tm_bracket *brackets, uint64_t count) {
  size_t shown = 0;
  for (uint64_t i = 0; i < count; i++) {
    size_t at = (size_t)brackets[i].column - 1, length = (size_t)brackets[i].length;
    printf("%.*s%s%.*s%s", (int)(at - shown), line + shown, colour_of(&brackets[i]), (int)length, line + at, plain);
    shown = at + length;
  }
  fputs(line + shown, stdout);
}

int main(int argc, char **argv) {
  tm_session session = {0};
  uint64_t lines, count;
  if (argc != 2) return fputs("usage: colour_brackets FILE\n", stderr), 2;
  open_file(&session, argv[1], hiding_of(argv[1]));
  must(tm_line_count(&session, 0, &lines));
  for (uint64_t n = 1; n <= lines; n++) {
    char *line = line_of(&session, n);
    tm_brackets(&session, 0, n, n, TM_UTF8, NULL, 0, &count); /* no room: it only counts */
    tm_bracket *brackets = room(count, sizeof *brackets);
    must(tm_brackets(&session, 0, n, n, TM_UTF8, brackets, count, &count));
    show(line, brackets, count);
    if (n < lines) putchar('\n');
    free(brackets);
    free(line);
  }
  tm_free(&session);
  return 0;
}
