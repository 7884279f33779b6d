/* Hands the library a text of more than 2^32 units, and asks for what is behind 2^32. The text is one block of memory that is mapped
 * again and again, so that the caller does not have it. Told by `huge`. */
#define _GNU_SOURCE
#include <stdio.h>
#include <stdlib.h>
#include <sys/mman.h>
#include <unistd.h>

#include "textmodel.h"

#define BLOCK ((uint64_t)1 << 25) /* units; the last one is a line feed */
#define BLOCKS ((uint64_t)130)

static void need(bool holds, const char *what) {
  if (!holds) {
    fprintf(stderr, "huge: %s\n", what);
    exit(1);
  }
}

/* The text: `BLOCKS` times the same block. */
static const uint16_t *mapped(void) {
  int file = memfd_create("block", 0);
  need(file >= 0 && ftruncate(file, BLOCK * 2) == 0, "no memory for a block");
  uint16_t *block = mmap(NULL, BLOCK * 2, PROT_READ | PROT_WRITE, MAP_SHARED, file, 0);
  need(block != MAP_FAILED, "no memory for a block");
  for (uint64_t at = 0; at < BLOCK; at++) block[at] = at + 1 < BLOCK ? 'a' + at % 26 : '\n';
  char *text = mmap(NULL, BLOCKS * BLOCK * 2, PROT_NONE, MAP_PRIVATE | MAP_ANONYMOUS | MAP_NORESERVE, -1, 0);
  need(text != MAP_FAILED, "no address space");
  for (uint64_t n = 0; n < BLOCKS; n++) {
    void *place = text + n * BLOCK * 2;
    need(mmap(place, BLOCK * 2, PROT_READ, MAP_SHARED | MAP_FIXED, file, 0) == place, "a block is not mapped");
  }
  return (const uint16_t *)text;
}

/* The document shows the text with these units at `at`, and nothing else. */
static void shows(tm_session *session, uint64_t len, uint64_t at, const char *units, size_t count) {
  uint64_t told = 0;
  uint16_t out[16];
  tm_place place;
  need(tm_len(session, 0, &told) == TM_OK && told == len, "another length");
  need(tm_line_count(session, 0, &told) == TM_OK && told == BLOCKS + 1, "another number of lines");
  need(tm_position(session, 0, at, TM_UTF16, &place) == TM_OK && place.line == at / BLOCK + 1 && place.column == at % BLOCK + 1,
       "another position");
  need(tm_offset(session, 0, place.line, place.column, TM_UTF16, &told) == TM_OK && told == at, "another offset");
  need(tm_value(session, 0, at, at + count, out, 16, &told) == TM_OK && told == count, "no units");
  for (size_t n = 0; n < count; n++) need(out[n] == (uint16_t)units[n], "other units");
}

int main(void) {
  const uint64_t len = BLOCKS * BLOCK, at = ((uint64_t)1 << 32) + 26, cut = ((uint64_t)1 << 31) - ((uint64_t)1 << 16);
  tm_session session = {0};
  need(tm_make(&session) == TM_OK, "no session");
  const uint16_t *text = mapped();
  need(tm_edit(&session, 0, 0, 0, text, len) == TM_OK, "the text is refused");
  char there[2][8];
  const uint64_t places[2] = {at, cut - 4};
  for (int p = 0; p < 2; p++)
    for (int n = 0; n < 8; n++) there[p][n] = (char)text[places[p] + n];
  shows(&session, len, at, there[0], 8);
  shows(&session, len, cut - 4, there[1], 8);
  need(tm_stop(&session, 0) == TM_OK, "no end of a step");
  need(tm_edit_utf8(&session, 0, at, at + 1, "xyz", 3) == TM_OK, "an edit behind 2^32 is refused");
  shows(&session, len + 2, at, "xyz", 3);
  need(tm_undo(&session, 0) == TM_OK, "an undo is refused");
  shows(&session, len, at, there[0], 8);
  need(tm_undo(&session, 0) == TM_OK, "the undo of the text is refused");
  uint64_t left = 1;
  need(tm_len(&session, 0, &left) == TM_OK && left == 0, "the text is left");
  printf("huge: %llu units: passed\n", (unsigned long long)len);
  tm_free(&session);
  return 0;
}
