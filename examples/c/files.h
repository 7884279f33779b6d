/* What the short examples share: reading a file, and giving up. */
#ifndef FILES_H
#define FILES_H

#include <stdio.h>
#include <stdlib.h>
#include <textmodel.h>

/* Ends the program unless the call succeeded. */
static inline void must(uint32_t status) {
  if (status == TM_OK) return;
  fprintf(stderr, "%s\n", tm_message(status));
  exit(1);
}

/* Room for `count` elements and one more, so that it is never null. */
static inline void *room(uint64_t count, size_t size) {
  void *made = calloc((size_t)count + 1, size);
  if (made == NULL) must(TM_MEMORY);
  return made;
}

/* Opens a file of UTF-8 as document 0. */
static inline void open_file(tm_session *session, const char *path, const tm_hiding *hiding) {
  FILE *file = fopen(path, "rb");
  long size = -1;
  if (file != NULL && fseek(file, 0, SEEK_END) == 0) size = ftell(file);
  if (size < 0) {
    perror(path);
    exit(1);
  }
  rewind(file);
  char *bytes = room((uint64_t)size, 1);
  size_t length = fread(bytes, 1, (size_t)size, file);
  fclose(file);
  must(tm_make(session));
  must(tm_open(session, 0, &(tm_opening){.utf8 = bytes, .length = length, .hiding = hiding}));
  free(bytes);
}

/* A line in UTF-8 without its ending. A zero stands behind it. The caller frees it. */
static inline char *line_of(tm_session *session, uint64_t number) {
  uint64_t length;
  if (tm_line_utf8(session, 0, number, NULL, 0, &length) != TM_SHORT) return room(0, 1); /* an empty line */
  char *line = room(length, 1);
  must(tm_line_utf8(session, 0, number, line, length, &length));
  return line;
}

#endif
