/* The core of an editor, on textmodel.h alone: a screen that follows each change, marks that move with the text, and a
 * name that is changed in several files by one step of undo. */
#ifndef EDITOR_H
#define EDITOR_H

#include <stdio.h>
#include <textmodel.h>

/* The files are documents 0, 1 .. of the session. */
enum { MOST_FILES = 64 };

/* In UTF-8, without its ending. A zero stands behind it. */
typedef struct line {
  char *bytes;
  uint64_t length;
} line;

typedef struct screen {
  line *lines;
  uint64_t count;
  uint64_t version; /* that of the document which it shows */
} screen;

/* Decorations whose ids follow each other. */
typedef struct marks {
  uint64_t first;
  uint64_t count;
} marks;

typedef struct editor {
  tm_session session;
  uint64_t files;
  screen screens[MOST_FILES];
  marks marked[MOST_FILES];
} editor;

/* Ends the program where a call is refused that is right, as where memory is short. A call without room only counts. */
void must(uint32_t status);

/* Zeros, and one element more than asked for. */
void *room(uint64_t count, size_t size);

/* ---- What may be refused answers a tm_status, and changes nothing then. */

void editor_start(editor *e);
void editor_end(editor *e);

/* Opens a text in UTF-8 as the next file. Its line endings stay, and what is typed gets them where they are all the same. */
uint32_t editor_open(editor *e, const char *bytes, size_t length);

/* Writes a file in UTF-8, with its line endings. */
void editor_write(editor *e, uint64_t file, FILE *out);

/* Types a text in the place of what stands from one place up to another. Columns count bytes. */
uint32_t editor_type(editor *e, uint64_t file, tm_place from, tm_place to, const char *text);

/* Changes a name wherever it stands in the files, as one step of undo. NOTHING where it stands nowhere. */
uint32_t editor_rename(editor *e, const char *old, const char *new);

/* Marks each place of a text. The marks from before go, wherever they have moved. */
void editor_mark(editor *e, uint64_t file, const char *text);

/* Brings all screens to the texts of now. To be called after each change. */
void editor_follow(editor *e);

/* Reads a line, whose bytes the caller frees. */
line editor_line(editor *e, uint64_t file, uint64_t number);

#endif
