/* Searches a file, and shows each line in which a text stands: search TEXT FILE [LINE COLUMN]
 *
 * With a line and a column it shows only the next place from there on, as an editor does from its cursor. */
#include "files.h"

#include <inttypes.h>
#include <string.h>

/* Columns count bytes, as compilers count them. */
static void show(tm_session *session, tm_found found) {
  tm_place place;
  must(tm_position(session, 0, found.start, TM_UTF8, &place));
  char *line = line_of(session, place.line);
  printf("%" PRIu64 ":%" PRIu64 ": %s\n", place.line, place.column, line);
  free(line);
}

int main(int argc, char **argv) {
  tm_session session = {0};
  uint64_t count;
  if (argc != 3 && argc != 5) return fputs("usage: search TEXT FILE [LINE COLUMN]\n", stderr), 2;
  open_file(&session, argv[2], NULL);
  tm_search search = {.utf8 = argv[1], .length = strlen(argv[1])};
  if (argc == 5) {
    must(tm_offset(&session, 0, strtoull(argv[3], NULL, 10), strtoull(argv[4], NULL, 10), TM_UTF8, &search.from));
    search.most = 1;
  }
  uint32_t status = tm_find(&session, 0, &search, NULL, 0, &count); /* no room: it only counts */
  if (status != TM_SHORT) must(status);
  tm_found *found = room(count, sizeof *found);
  must(tm_find(&session, 0, &search, found, count, &count));
  for (uint64_t i = 0; i < count; i++) show(&session, found[i]);
  free(found);
  tm_free(&session);
  return count == 0;
}
