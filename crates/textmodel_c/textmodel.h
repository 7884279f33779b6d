/* The text model for C11 and C++17: the documents of an editor, their history, decorations, brackets and snapshots.
 *
 *   tm_session session = {0};
 *   if (tm_make(&session) != TM_OK) return 1;
 *   tm_edit_utf8(&session, 0, 0, 0, "hi", 2);
 *   tm_free(&session);
 *
 * A session holds 64 documents, numbered from 0 to 63. All are there from the start, and empty. Most calls take the number
 * of the document right after the session.
 *
 * A document's text is UTF-16; lone surrogates are allowed. Each call with text has a variant for UTF-8, whose name ends with
 * _utf8; tm_open and tm_find take both. An offset counts 16-bit units from 0. A line and a column count from 1. A span from
 * `start` up to `end` does not include the unit at `end`. A valid offset is between 0 and the length of the text, not inside a
 * surrogate pair, and not inside a CR LF if the document has CR LF line endings. A valid span has two valid offsets, the start
 * not above the end.
 *
 * Each call returns a status. If it is not TM_OK, nothing was changed, and no output was written except what that status
 * names; `fault` of the session then says what was wrong. The comment of each call lists the statuses that it may return
 * beside TM_OK. Not repeated there:
 * - TM_EMPTY: the session was not made, or was freed. All calls but tm_make, tm_free, tm_version and tm_message.
 * - TM_UNKNOWN: the document number is above 63. All calls that take one.
 * - TM_ENCODING, TM_MEMORY: a text is not valid UTF-8, or there is no memory for its units. All calls that take UTF-8. The
 *   text is checked before anything else.
 *
 * What the caller must do, at every call:
 * - A session starts as all zeros. Only these calls change it.
 * - It is not copied. A copy would be a second owner of the same memory.
 * - Any thread may call, but only one at a time on a session. The library has no locks and no thread-local storage. Do not
 *   call from a signal handler.
 * - A pointer points to as many elements as the length after it says. It may be null if that is 0. The elements of an input
 *   are initialized.
 * - The session, and a pointer to a single result, are never null.
 * - An output overlaps no input, no session and no other output.
 * - A bool is 0 or 1.
 * - malloc, realloc and free belong to one allocator, and align as C asks.
 *
 * Limits: a text has at most 2^40 - 1 units. A document has at most 2^20 decorations and 1,000 open snapshots. Versions
 * and ids go up to 2^63 - 1. A call that would pass a limit returns TM_LIMIT. An opening bracket inside 300 others is text.
 */
#ifndef TEXTMODEL_H
#define TEXTMODEL_H

#include <stdbool.h>
#include <stddef.h>
#include <stdint.h>

enum tm_status {
  TM_OK = 0,
  TM_NOTHING = 1,  /* nothing to do, or not found */
  TM_UNKNOWN = 2,  /* no document, decoration, snapshot, event or mirror of this number */
  TM_RANGE = 3,    /* an argument is out of range or invalid */
  TM_OVERLAP = 4,  /* two edits of one document overlap */
  TM_LIMIT = 5,    /* a limit would be passed */
  TM_MEMORY = 6,   /* out of memory */
  TM_ENCODING = 7, /* a text is not valid UTF-8 */
  TM_EMPTY = 8,    /* the session was not made, or was freed */
  TM_SHORT = 9,    /* `out` is too short; `count` is the length needed */
  TM_JOINT = 10,   /* a joint step is not the next one to undo or redo in each of its documents */
  TM_GAP = 11      /* a mirror lacks earlier events */
};

/* The unit of columns: bytes of UTF-8, UTF-16 units, or code points. A lone surrogate counts as U+FFFD. In a mixed document
 * tm_position also converts the offset between a CR and its LF, to the column after the end of the line's content. No call
 * accepts that column. */
enum tm_encoding { TM_UTF8 = 8, TM_UTF16 = 16, TM_UTF32 = 32 };

/* The line endings of a document. TM_MIXED keeps each as it came: LF, CR LF or CR. TM_LF and TM_CRLF convert all of them, in
 * text inserted later too. */
enum tm_ending { TM_MIXED = 0, TM_LF = 1, TM_CRLF = 2 };

/* Why the last call was refused. Only the fields named at its status have a meaning:
 * - TM_ENCODING: `index` is the offset of the first invalid byte.
 * - TM_UNKNOWN, TM_RANGE, TM_OVERLAP from tm_joint: `index` is the index of the invalid edit, from 0, and `doc` its document.
 *   The edits before it alone would not have been refused with this status. TM_NO_INDEX: no single edit is invalid, as when
 *   the edits do not use up `text`, or there was no memory for the search.
 * - TM_UNKNOWN, TM_RANGE from tm_decorate: `index` is an index in `remove`, or in `add`. TM_NO_INDEX as above.
 * - TM_JOINT: `doc` is a document whose last or next step is another one.
 * - TM_GAP: the mirror has version `have`; the event leads from version `need`. */
typedef struct tm_fault {
  uint64_t index;
  uint64_t doc;
  uint64_t have;
  uint64_t need;
} tm_fault;

#define TM_NO_INDEX UINT64_MAX

/* Holds 64 documents, or nothing if `at` is null. */
typedef struct tm_session {
  void *at;
  tm_fault fault;
} tm_session;

typedef struct tm_place {
  uint64_t line;
  uint64_t column;
} tm_place;

/* An edit of a joint edit. It replaces the span from `start` up to `end` of document `doc` by the next `units` units of the
 * joined text, or bytes if that is UTF-8. `force` moves the decorations at the span to the end of the new text, whatever
 * their stickiness. */
typedef struct tm_op {
  uint64_t doc;
  uint64_t start;
  uint64_t end;
  uint64_t units;
  bool force;
} tm_op;

/* An edit of the last change: a text of `units` units replaced those from `start` up to `end`. Both offsets refer to the text
 * after the edits before this one. */
typedef struct tm_change {
  uint64_t start;
  uint64_t end;
  uint64_t units;
} tm_change;

/* The state of a mirror: its version, and the number of units and lines of its text. */
typedef struct tm_followed {
  uint64_t version;
  uint64_t units;
  uint64_t lines;
} tm_followed;

/* A pair of brackets: the lengths of its opening and closing text in units, each 1 to 32. */
typedef struct tm_pair {
  uint64_t opening;
  uint64_t closing;
} tm_pair;

/* A decoration to add. Text typed at its ends makes it grow: `stick` is 0 for both ends, 1 for neither, 2 for its start only,
 * 3 for its end only. With `collapse` it becomes empty if an edit replaces all of its text. */
typedef struct tm_new_decoration {
  uint64_t start;
  uint64_t end;
  uint64_t stick;
  bool collapse;
} tm_new_decoration;

typedef struct tm_decoration {
  uint64_t id;
  uint64_t owner;
  uint64_t start;
  uint64_t end;
  uint64_t stick;
  bool collapse;
} tm_decoration;

typedef struct tm_found {
  uint64_t start;
  uint64_t end;
} tm_found;

/* A bracket. `column` and `length` have the unit asked for. `kind` is the index of its pair, from 0. `level` is the number of
 * brackets open around it. `state` is 0 for an opening bracket that is closed later, 1 for the closing bracket of a pair, 2 for
 * an opening bracket never closed, 3 for a closing bracket without an opening one. */
typedef struct tm_bracket {
  uint64_t line;
  uint64_t column;
  uint64_t length;
  uint64_t kind;
  uint64_t level;
  uint32_t state;
} tm_bracket;

typedef struct tm_partner {
  uint64_t line;
  uint64_t column;
  uint64_t length;
} tm_partner;

#ifdef __cplusplus
extern "C" {
#endif

/* ---- The session */

/* Makes a session of 64 empty documents, and frees what it held before. MEMORY: it is unchanged. */
uint32_t tm_make(tm_session *session);

/* Frees the session, which is empty then and may be made again. Always OK, even if it was empty. */
uint32_t tm_free(tm_session *session);

/* The version of the library: 10000 times the major version, 100 times the minor one, plus the patch. */
uint32_t tm_version(void);

/* ---- History and line endings */

/* Makes the next edit begin a new undo step. Without it, consecutive edits are one step. Any other kind of change is its own
 * step. */
uint32_t tm_stop(tm_session *session, uint64_t doc);

/* OK if there is a step to undo, else NOTHING. */
uint32_t tm_can_undo(tm_session *session, uint64_t doc);

/* OK if there is a step to redo, else NOTHING. */
uint32_t tm_can_redo(tm_session *session, uint64_t doc);

/* Changes the kind of line endings to `kind`, a tm_ending, and converts all of them, as an undo step of its own. TM_MIXED
 * leaves the text unchanged. NOTHING if the document has this kind already. RANGE if the kind is invalid. LIMIT, MEMORY. */
uint32_t tm_set_eol(tm_session *session, uint64_t doc, uint32_t kind);

/* ---- Questions */

/* The kind of line endings, a tm_ending. */
uint32_t tm_kind(tm_session *session, uint64_t doc, uint32_t *kind);

/* The length of the text in units. */
uint32_t tm_len(tm_session *session, uint64_t doc, uint64_t *len);

/* The number of lines, at least 1. */
uint32_t tm_line_count(tm_session *session, uint64_t doc, uint64_t *count);

/* The version and the alternative version. A new document has version 1. Each change adds 1 to the version, an undo too. An
 * edit makes both equal; an undo or redo restores the alternative version of the text that it restores. */
uint32_t tm_versions(tm_session *session, uint64_t doc, uint64_t *version, uint64_t *alternative);

/* Converts an offset into a position. `encoding`, a tm_encoding, is the unit of the column. NOTHING if the offset is invalid.
 * RANGE if the encoding is. MEMORY, but never with TM_UTF16. */
uint32_t tm_position(tm_session *session, uint64_t doc, uint64_t offset, uint32_t encoding, tm_place *place);

/* Converts a position into an offset. `encoding`, a tm_encoding, is the unit of the column. NOTHING if the line is missing, or
 * the column is beyond its end or inside a character. RANGE if the encoding is invalid. MEMORY, but never with TM_UTF16. */
uint32_t tm_offset(tm_session *session, uint64_t doc, uint64_t line, uint64_t column, uint32_t encoding, uint64_t *offset);

/* The decoration with this id. NOTHING if there is none. */
uint32_t tm_deco(tm_session *session, uint64_t doc, uint64_t id, tm_decoration *decoration);

/* The bracket that matches the one at this position. `encoding`, a tm_encoding, is the unit of columns and lengths. NOTHING if
 * no bracket starts there, or it has no match. RANGE if the position or the encoding is invalid, or the match begins or ends
 * inside a character. MEMORY, but never with TM_UTF16 if tm_brackets, tm_match or tm_level parsed the text since its last
 * change. */
uint32_t tm_match(tm_session *session, uint64_t doc, uint64_t line, uint64_t column, uint32_t encoding, tm_partner *partner);

/* The number of brackets that are open after those that start before this position. `encoding`, a tm_encoding, is the unit of
 * the column. RANGE if the position or the encoding is invalid. MEMORY, but never with TM_UTF16 if the text was parsed since
 * its last change. */
uint32_t tm_level(tm_session *session, uint64_t doc, uint64_t line, uint64_t column, uint32_t encoding, uint64_t *level);

/* ---- What the last change did */

/* Returns the document's last change, one edit a call. The change is an edit, an undo, a redo or new line endings. Applied in
 * order, the edits turn the text before it into the present one. tm_change_text returns the text of an edit. NOTHING after the
 * last edit; the next call then starts again with the first. It also starts again after another change, a call for another
 * document, tm_open or a script line. The edits are collected at the first call and kept until the last one is returned.
 * MEMORY, only at a first call. */
uint32_t tm_next_change(tm_session *session, uint64_t doc, tm_change *change);

/* ---- Mirrors: a mirror is a second text that follows the document by its events. See also tm_deliver. */

/* Starts a mirror with the present text; it replaces the document's old mirror. Sets `version` to its version. MEMORY. */
uint32_t tm_mirror(tm_session *session, uint64_t doc, uint64_t *version);

/* Sends the last change as an event, and keeps it. `number` is the event's number in the document, from 1. The event leads
 * from version `from` to the next one. NOTHING in version 1, before any change. LIMIT if 65,536 events were sent. MEMORY. */
uint32_t tm_send(tm_session *session, uint64_t doc, uint64_t *number, uint64_t *from);

/* The state of the mirror. NOTHING if the document has none. */
uint32_t tm_mirror_now(tm_session *session, uint64_t doc, tm_followed *followed);

/* ---- Snapshots */

/* Keeps the present text, to be read from its start by tm_read. Sets `id` to the snapshot's id. LIMIT, MEMORY. */
uint32_t tm_snapshot(tm_session *session, uint64_t doc, uint64_t *id);

/* Closes a snapshot. Its id is not used again until tm_open replaces the document. UNKNOWN if no snapshot with this id is
 * open. */
uint32_t tm_close(tm_session *session, uint64_t doc, uint64_t id);

/* ---- Called by the functions below, with the same statuses. These accept no null pointer, even if a length is 0. */

uint32_t tm_raw_open(tm_session *session, uint64_t doc, uint32_t kind, const uint16_t *text, size_t text_len, const tm_pair *pairs, size_t pairs_len, const uint16_t *brackets, size_t brackets_len, uint64_t line, uint64_t opening, uint64_t closing, const uint16_t *marks, size_t marks_len);
uint32_t tm_raw_open_utf8(tm_session *session, uint64_t doc, uint32_t kind, const uint8_t *text, size_t text_len, const tm_pair *pairs, size_t pairs_len, const uint16_t *brackets, size_t brackets_len, uint64_t line, uint64_t opening, uint64_t closing, const uint16_t *marks, size_t marks_len, uint64_t *bad);
uint32_t tm_raw_edit(tm_session *session, uint64_t doc, uint64_t start, uint64_t end, const uint16_t *text, size_t text_len);
uint32_t tm_raw_edit_utf8(tm_session *session, uint64_t doc, uint64_t start, uint64_t end, const uint8_t *text, size_t text_len, uint64_t *bad);
uint32_t tm_raw_edit_at(tm_session *session, uint64_t doc, uint64_t line, uint64_t column, uint64_t end_line, uint64_t end_column, uint32_t encoding, const uint16_t *text, size_t text_len);
uint32_t tm_raw_edit_at_utf8(tm_session *session, uint64_t doc, uint64_t line, uint64_t column, uint64_t end_line, uint64_t end_column, uint32_t encoding, const uint8_t *text, size_t text_len, uint64_t *bad);
uint32_t tm_raw_joint(tm_session *session, const tm_op *ops, size_t ops_len, const uint16_t *text, size_t text_len);
uint32_t tm_raw_joint_utf8(tm_session *session, const tm_op *ops, size_t ops_len, const uint8_t *text, size_t text_len, uint64_t *bad);
uint32_t tm_raw_joint_fault(tm_session *session, const tm_op *ops, size_t ops_len, uint64_t left, uint32_t why, uint64_t *index);
uint32_t tm_raw_undo(tm_session *session, uint64_t doc, uint64_t *other);
uint32_t tm_raw_redo(tm_session *session, uint64_t doc, uint64_t *other);
uint32_t tm_raw_value(tm_session *session, uint64_t doc, uint64_t start, uint64_t end, uint16_t *out, size_t out_len, uint64_t *count);
uint32_t tm_raw_value_utf8(tm_session *session, uint64_t doc, uint64_t start, uint64_t end, uint8_t *out, size_t out_len, uint64_t *count);
uint32_t tm_raw_line(tm_session *session, uint64_t doc, uint64_t n, uint16_t *out, size_t out_len, uint64_t *count);
uint32_t tm_raw_line_utf8(tm_session *session, uint64_t doc, uint64_t n, uint8_t *out, size_t out_len, uint64_t *count);
uint32_t tm_raw_read_into(tm_session *session, uint64_t doc, uint64_t offset, uint16_t *out, size_t out_len, uint64_t *count);
uint32_t tm_raw_read_into_utf8(tm_session *session, uint64_t doc, uint64_t *offset, uint8_t *out, size_t out_len, uint64_t *count);
uint32_t tm_raw_stops(tm_session *session, uint64_t doc, uint64_t n, uint32_t encoding, uint64_t *out, size_t out_len, uint64_t *count);
uint32_t tm_raw_find(tm_session *session, uint64_t doc, const uint16_t *sought, size_t sought_len, uint64_t from, bool back, uint64_t most, tm_found *out, size_t out_len, uint64_t *count);
uint32_t tm_raw_find_utf8(tm_session *session, uint64_t doc, const uint8_t *sought, size_t sought_len, uint64_t from, bool back, uint64_t most, tm_found *out, size_t out_len, uint64_t *count, uint64_t *bad);
uint32_t tm_raw_replace_all(tm_session *session, uint64_t doc, const uint16_t *sought, size_t sought_len, const uint16_t *with, size_t with_len, uint64_t *count);
uint32_t tm_raw_replace_all_utf8(tm_session *session, uint64_t doc, const uint8_t *sought, size_t sought_len, const uint8_t *with, size_t with_len, uint64_t *count, uint64_t *bad);
uint32_t tm_raw_decorate(tm_session *session, uint64_t doc, uint64_t owner, const uint64_t *remove, size_t remove_len, const tm_new_decoration *add, size_t add_len, uint64_t *first);
uint32_t tm_raw_decorate_fault(tm_session *session, uint64_t doc, uint64_t owner, const uint64_t *remove, size_t remove_len, const tm_new_decoration *add, size_t add_len, uint32_t why, uint64_t *index);
uint32_t tm_raw_decos(tm_session *session, uint64_t doc, uint64_t start, uint64_t end, uint64_t owner, bool any, tm_decoration *out, size_t out_len, uint64_t *count);
uint32_t tm_raw_brackets(tm_session *session, uint64_t doc, uint64_t from, uint64_t to, uint32_t encoding, tm_bracket *out, size_t out_len, uint64_t *count);
uint32_t tm_raw_read(tm_session *session, uint64_t doc, uint64_t id, uint16_t *out, size_t out_len, uint64_t *count);
uint32_t tm_raw_read_utf8(tm_session *session, uint64_t doc, uint64_t id, uint8_t *out, size_t out_len, uint64_t *count);
uint32_t tm_raw_change_text(tm_session *session, uint16_t *out, size_t out_len, uint64_t *count);
uint32_t tm_raw_change_text_utf8(tm_session *session, uint8_t *out, size_t out_len, uint64_t *count);
uint32_t tm_raw_deliver(tm_session *session, uint64_t doc, uint64_t number, tm_followed *followed, uint64_t *have, uint64_t *need);
uint32_t tm_raw_mirrored(tm_session *session, uint64_t doc, uint64_t n, uint16_t *out, size_t out_len, uint64_t *count);
uint32_t tm_raw_mirrored_utf8(tm_session *session, uint64_t doc, uint64_t n, uint8_t *out, size_t out_len, uint64_t *count);
uint32_t tm_raw_answer(tm_session *session, const uint8_t *line, size_t line_len, uint64_t *len);
uint32_t tm_raw_reply(tm_session *session, uint64_t from, uint8_t *out, size_t out_len, uint64_t *count);

#ifdef __cplusplus
}
#endif

/* ---- Replacements for null pointers */

static inline const uint8_t *tm_bytes_(const char *p) { static const uint8_t none = 0; return p ? (const uint8_t *)p : &none; }
static inline const uint16_t *tm_units_(const uint16_t *p) { static const uint16_t none = 0; return p ? p : &none; }
static inline const uint64_t *tm_numbers_(const uint64_t *p) { static const uint64_t none = 0; return p ? p : &none; }
static inline const tm_op *tm_ops_(const tm_op *p) { static const tm_op none = {0, 0, 0, 0, false}; return p ? p : &none; }
static inline const tm_pair *tm_pairs_(const tm_pair *p) { static const tm_pair none = {0, 0}; return p ? p : &none; }
static inline const tm_new_decoration *tm_news_(const tm_new_decoration *p) { static const tm_new_decoration none = {0, 0, 0, false}; return p ? p : &none; }
static inline uint8_t *tm_bytes_out_(char *p) { static uint8_t none; return p ? (uint8_t *)p : &none; }
static inline uint16_t *tm_units_out_(uint16_t *p) { static uint16_t none; return p ? p : &none; }
static inline uint64_t *tm_numbers_out_(uint64_t *p) { static uint64_t none; return p ? p : &none; }
static inline tm_decoration *tm_decorations_out_(tm_decoration *p) { static tm_decoration none; return p ? p : &none; }
static inline tm_found *tm_found_out_(tm_found *p) { static tm_found none; return p ? p : &none; }
static inline tm_bracket *tm_brackets_out_(tm_bracket *p) { static tm_bracket none; return p ? p : &none; }

/* ---- Statuses in words */

/* A short text for a status. */
static inline const char *tm_message(uint32_t status) {
  switch (status) {
    case TM_OK: return "ok";
    case TM_NOTHING: return "nothing to do, or nothing there";
    case TM_UNKNOWN: return "no document, decoration, snapshot, event or mirror of this number";
    case TM_RANGE: return "an argument is out of range or invalid";
    case TM_OVERLAP: return "two edits overlap";
    case TM_LIMIT: return "a limit would be passed";
    case TM_MEMORY: return "out of memory";
    case TM_ENCODING: return "a text is not valid UTF-8";
    case TM_EMPTY: return "the session was not made, or was freed";
    case TM_SHORT: return "the buffer is too short";
    case TM_JOINT: return "a step of several documents is not the next one of each of them";
    case TM_GAP: return "the mirror lacks events before this one";
    default: return "unknown status";
  }
}

/* Finds the edit for which a joint edit was refused. */
static inline void tm_tell_edit_(tm_session *session, const tm_op *ops, size_t count, uint64_t length, uint32_t status) {
  uint64_t index = 0;
  session->fault.index = TM_NO_INDEX;
  if (tm_raw_joint_fault(session, tm_ops_(ops), count, length, status, &index) != TM_OK) return;
  session->fault.index = index;
  session->fault.doc = ops[index].doc;
}

/* ---- A new document */

/* Comments and strings, in which brackets are ignored. `texts` holds, one after another: the text of `line` units that begins
 * a line comment; the texts of `opening` and `closing` units that begin and end a block comment; and the quotes that begin and
 * end strings, one unit each. If `line` is 0 there are no line comments; if `opening` and `closing` are both 0 there are no
 * block comments. Each text has at most 32 units. There are at most 8 quotes, all different. A string ends with its line at
 * the latest. A backslash in a string escapes the next unit. */
typedef struct tm_hiding {
  const uint16_t *texts;
  size_t length;
  uint64_t line;
  uint64_t opening;
  uint64_t closing;
} tm_hiding;

/* Comments and strings of some languages. Each string ends with its line, even if the language lets it go on, as with three
 * quotes. In Rust a single quote begins no string, since lifetimes begin with one. */
static const uint16_t tm_hiding_texts_[] = {'/', '/', '/', '*', '*', '/', '"', '\'', '`'};
static const uint16_t tm_hiding_hash_texts_[] = {'#', '"', '\''};
static const tm_hiding tm_hiding_c = {tm_hiding_texts_, 8, 2, 2, 2};
static const tm_hiding tm_hiding_rust = {tm_hiding_texts_, 7, 2, 2, 2};
static const tm_hiding tm_hiding_javascript = {tm_hiding_texts_, 9, 2, 2, 2};
static const tm_hiding tm_hiding_python = {tm_hiding_hash_texts_, 3, 1, 0, 0};
static const tm_hiding tm_hiding_shell = {tm_hiding_hash_texts_, 3, 1, 0, 0};

/* A new document. Fields left out are 0 or null: in C, `tm_opening opening = {.utf16 = text, .length = 5};`.
 *
 * The text is `utf8`, or if that is null `utf16`, of `length` bytes or units. A byte order mark would count as a unit: leave it
 * out. `ending` is a tm_ending. There are `pair_count` bracket pairs, at most 64. `brackets` has their texts one after another,
 * the opening text of each pair before its closing text. All differ, and none has a line break. Without pairs the brackets are
 * (), [] and {}. If `hiding` is null, there are no comments or strings. */
typedef struct tm_opening {
  const char *utf8;
  const uint16_t *utf16;
  size_t length;
  uint32_t ending;
  const tm_pair *pairs;
  size_t pair_count;
  const uint16_t *brackets;
  size_t brackets_length;
  const tm_hiding *hiding;
} tm_opening;

/* Replaces the document by a new one. The decorations, snapshots, history, mirror and events of the old one are lost. RANGE if
 * the ending, the pairs or the hiding are invalid, or their lengths do not use up their texts. LIMIT, MEMORY. */
static inline uint32_t tm_open(tm_session *session, uint64_t doc, const tm_opening *o) {
  static const tm_hiding none = {NULL, 0, 0, 0, 0};
  const tm_hiding *h = o->hiding ? o->hiding : &none;
  if (o->utf8)
    return tm_raw_open_utf8(session, doc, o->ending, tm_bytes_(o->utf8), o->length, tm_pairs_(o->pairs), o->pair_count,
                            tm_units_(o->brackets), o->brackets_length, h->line, h->opening, h->closing, tm_units_(h->texts), h->length, &session->fault.index);
  return tm_raw_open(session, doc, o->ending, tm_units_(o->utf16), o->length, tm_pairs_(o->pairs), o->pair_count,
                     tm_units_(o->brackets), o->brackets_length, h->line, h->opening, h->closing, tm_units_(h->texts), h->length);
}

/* ---- Edits */

/* Replaces the units from `start` up to `end` by the text. RANGE if the span is invalid. LIMIT, MEMORY. */
static inline uint32_t tm_edit(tm_session *session, uint64_t doc, uint64_t start, uint64_t end, const uint16_t *text, size_t length) {
  return tm_raw_edit(session, doc, start, end, tm_units_(text), length);
}

static inline uint32_t tm_edit_utf8(tm_session *session, uint64_t doc, uint64_t start, uint64_t end, const char *text, size_t length) {
  return tm_raw_edit_utf8(session, doc, start, end, tm_bytes_(text), length, &session->fault.index);
}

/* Like tm_edit, from one position up to another. `encoding`, a tm_encoding, is the unit of the columns. RANGE also if the
 * encoding or a position is invalid. */
static inline uint32_t tm_edit_at(tm_session *session, uint64_t doc, tm_place from, tm_place to, uint32_t encoding, const uint16_t *text, size_t length) {
  return tm_raw_edit_at(session, doc, from.line, from.column, to.line, to.column, encoding, tm_units_(text), length);
}

static inline uint32_t tm_edit_at_utf8(tm_session *session, uint64_t doc, tm_place from, tm_place to, uint32_t encoding, const char *text, size_t length) {
  return tm_raw_edit_at_utf8(session, doc, from.line, from.column, to.line, to.column, encoding, tm_bytes_(text), length, &session->fault.index);
}

/* Carries out edits in one or several documents, all or none. The edits of one document are adjacent in the list; their
 * offsets refer to its text before the call. `text` has the texts of all edits, one after another. In one document this is a
 * change like that of tm_edit. In several, each document gets its own undo step; these steps are undone and redone together.
 * RANGE if there is no edit, a span is invalid, or the edits do not use up `text` exactly. UNKNOWN if a document number is
 * above 63, or is repeated after another one. OVERLAP if two spans of a document overlap. LIMIT, MEMORY. */
static inline uint32_t tm_joint(tm_session *session, const tm_op *ops, size_t count, const uint16_t *text, size_t length) {
  uint32_t status = tm_raw_joint(session, tm_ops_(ops), count, tm_units_(text), length);
  if (status != TM_OK) tm_tell_edit_(session, ops, count, length, status);
  return status;
}

/* Like tm_joint; `units` of an edit counts bytes of UTF-8. RANGE also if the text of an edit ends inside a character. */
static inline uint32_t tm_joint_utf8(tm_session *session, const tm_op *ops, size_t count, const char *text, size_t length) {
  uint32_t status = tm_raw_joint_utf8(session, tm_ops_(ops), count, tm_bytes_(text), length, &session->fault.index);
  if (status != TM_OK && status != TM_ENCODING) tm_tell_edit_(session, ops, count, length, status);
  return status;
}

/* Undoes the last step. A joint step is undone in all its documents. NOTHING if there is no step. JOINT if the step is not the
 * last one in each of these documents: undo their later steps first. LIMIT, MEMORY. */
static inline uint32_t tm_undo(tm_session *session, uint64_t doc) { return tm_raw_undo(session, doc, &session->fault.doc); }

/* Redoes the step that was undone last. A joint step is redone in all its documents. NOTHING if there is no step. JOINT if the
 * step is not the next one in each of these documents: redo their earlier steps first. LIMIT, MEMORY. */
static inline uint32_t tm_redo(tm_session *session, uint64_t doc) { return tm_raw_redo(session, doc, &session->fault.doc); }

/* ---- Reading text. `room` is the length of `out` in elements. No zero is written after the text.
 * With `room` 0, a call that may return SHORT only counts: it returns SHORT, or OK if the result is empty. */

/* The units from `start` up to `end`. RANGE if the span is invalid. SHORT, MEMORY. */
static inline uint32_t tm_value(tm_session *session, uint64_t doc, uint64_t start, uint64_t end, uint16_t *out, size_t room, uint64_t *count) {
  return tm_raw_value(session, doc, start, end, tm_units_out_(out), room, count);
}

static inline uint32_t tm_value_utf8(tm_session *session, uint64_t doc, uint64_t start, uint64_t end, char *out, size_t room, uint64_t *count) {
  return tm_raw_value_utf8(session, doc, start, end, tm_bytes_out_(out), room, count);
}

/* The content of a line, without its line ending. RANGE if there is no such line. SHORT, MEMORY. */
static inline uint32_t tm_line(tm_session *session, uint64_t doc, uint64_t line, uint16_t *out, size_t room, uint64_t *count) {
  return tm_raw_line(session, doc, line, tm_units_out_(out), room, count);
}

/* The content of a line in UTF-8. A lone surrogate becomes U+FFFD, here and in the calls below. */
static inline uint32_t tm_line_utf8(tm_session *session, uint64_t doc, uint64_t line, char *out, size_t room, uint64_t *count) {
  return tm_raw_line_utf8(session, doc, line, tm_bytes_out_(out), room, count);
}

/* As many units from the offset on as fit into `out`, one fewer if that would split a surrogate pair or a CR LF line ending.
 * RANGE if the offset is invalid, or `room` is below 2. MEMORY. */
static inline uint32_t tm_read_into(tm_session *session, uint64_t doc, uint64_t offset, uint16_t *out, size_t room, uint64_t *count) {
  return tm_raw_read_into(session, doc, offset, tm_units_out_(out), room, count);
}

/* The same in UTF-8. Reads at most a third as many units as `room`, since a unit takes at most 3 bytes. Sets `offset` to the
 * end of what was read. RANGE also if `room` is below 6. */
static inline uint32_t tm_read_into_utf8(tm_session *session, uint64_t doc, uint64_t *offset, char *out, size_t room, uint64_t *count) {
  return tm_raw_read_into_utf8(session, doc, offset, tm_bytes_out_(out), room, count);
}

/* The columns of a line at which a cursor may stop: the start of each character as a reader sees it (Unicode's extended
 * grapheme clusters). The end of the line is left out. `encoding`, a tm_encoding, is their unit. RANGE if there is no such
 * line or the encoding is invalid. SHORT, MEMORY. */
static inline uint32_t tm_stops(tm_session *session, uint64_t doc, uint64_t line, uint32_t encoding, uint64_t *out, size_t room, uint64_t *count) {
  return tm_raw_stops(session, doc, line, encoding, tm_numbers_out_(out), room, count);
}

/* The text of the edit that tm_next_change returned last, for whichever document. NOTHING if there is no such edit, or a
 * document was opened or a script line answered since. SHORT. */
static inline uint32_t tm_change_text(tm_session *session, uint16_t *out, size_t room, uint64_t *count) {
  return tm_raw_change_text(session, tm_units_out_(out), room, count);
}

/* MEMORY, beside the statuses of tm_change_text. */
static inline uint32_t tm_change_text_utf8(tm_session *session, char *out, size_t room, uint64_t *count) {
  return tm_raw_change_text_utf8(session, tm_bytes_out_(out), room, count);
}

/* Reads on in a snapshot: as many of its next units as fit into `out`, one fewer if that would split a surrogate pair. Sets
 * `count` to 0 at its end. UNKNOWN if no snapshot with this id is open. RANGE if `room` is below 2. MEMORY. */
static inline uint32_t tm_read(tm_session *session, uint64_t doc, uint64_t id, uint16_t *out, size_t room, uint64_t *count) {
  return tm_raw_read(session, doc, id, tm_units_out_(out), room, count);
}

/* The same in UTF-8. Reads at most a third as many units as `room`. RANGE if `room` is below 6. */
static inline uint32_t tm_read_utf8(tm_session *session, uint64_t doc, uint64_t id, char *out, size_t room, uint64_t *count) {
  return tm_raw_read_utf8(session, doc, id, tm_bytes_out_(out), room, count);
}

/* ---- Mirrors */

/* Delivers the event of this number to the mirror, which then has the text of the next version. Sets `followed` to the
 * mirror's state. NOTHING if the mirror has that version or a later one. GAP if it lacks earlier events. UNKNOWN also if there
 * is no such event, or no mirror. MEMORY. */
static inline uint32_t tm_deliver(tm_session *session, uint64_t doc, uint64_t number, tm_followed *followed) {
  return tm_raw_deliver(session, doc, number, followed, &session->fault.have, &session->fault.need);
}

/* The content of a line of the mirror, without its line ending. UNKNOWN also if the document has no mirror. RANGE if the mirror
 * has no such line. SHORT, MEMORY. */
static inline uint32_t tm_mirrored(tm_session *session, uint64_t doc, uint64_t line, uint16_t *out, size_t room, uint64_t *count) {
  return tm_raw_mirrored(session, doc, line, tm_units_out_(out), room, count);
}

static inline uint32_t tm_mirrored_utf8(tm_session *session, uint64_t doc, uint64_t line, char *out, size_t room, uint64_t *count) {
  return tm_raw_mirrored_utf8(session, doc, line, tm_bytes_out_(out), room, count);
}

/* ---- Search */

/* A search. Fields left out are 0 or null: in C, `&(tm_search){.utf8 = "total", .length = 5}`.
 *
 * The sought text is `utf8`, or if that is null `utf16`, of `length` bytes or units. Matches are found from left to right, and
 * none overlaps the one before. Returned are those that start at or after `from`, or with `back` those that end at or before
 * `from`, the last one first; at most `most` of them, or all if that is 0. */
typedef struct tm_search {
  const char *utf8;
  const uint16_t *utf16;
  size_t length;
  uint64_t from;
  bool back;
  uint64_t most;
} tm_search;

/* The spans at which the sought text occurs, unit for unit. Each is a valid span: half of a surrogate pair is not found in the
 * pair, nor an LF alone in a CR LF document. RANGE if the sought text is empty. SHORT, MEMORY. */
static inline uint32_t tm_find(tm_session *session, uint64_t doc, const tm_search *s, tm_found *out, size_t room, uint64_t *count) {
  uint64_t most = s->most ? s->most : UINT64_MAX;
  if (s->utf8)
    return tm_raw_find_utf8(session, doc, tm_bytes_(s->utf8), s->length, s->from, s->back, most, tm_found_out_(out), room, count, &session->fault.index);
  return tm_raw_find(session, doc, tm_units_(s->utf16), s->length, s->from, s->back, most, tm_found_out_(out), room, count);
}

/* Replaces each match of the sought text, as one change and an undo step of its own. Sets `count` to their number. NOTHING if
 * there is none. RANGE if the sought text is empty. LIMIT, MEMORY. */
static inline uint32_t tm_replace_all(tm_session *session, uint64_t doc, const uint16_t *sought, size_t length, const uint16_t *with, size_t with_length, uint64_t *count) {
  return tm_raw_replace_all(session, doc, tm_units_(sought), length, tm_units_(with), with_length, count);
}

/* The same in UTF-8. If both texts are invalid UTF-8, `index` of `fault` is an offset in the sought one. */
static inline uint32_t tm_replace_all_utf8(tm_session *session, uint64_t doc, const char *sought, size_t length, const char *with, size_t with_length, uint64_t *count) {
  return tm_raw_replace_all_utf8(session, doc, tm_bytes_(sought), length, tm_bytes_(with), with_length, count, &session->fault.index);
}

/* ---- Decorations */

/* Removes decorations of an owner by their ids, and adds new ones. Sets `first` to the id of the first new one, which the
 * others follow, or to the next free id if none is added. UNKNOWN if one to be removed is missing, has another owner, or is
 * repeated. RANGE if a span or a `stick` is invalid. LIMIT, MEMORY. */
static inline uint32_t tm_decorate(tm_session *session, uint64_t doc, uint64_t owner, const uint64_t *remove, size_t removed, const tm_new_decoration *add, size_t added, uint64_t *first) {
  uint32_t status = tm_raw_decorate(session, doc, owner, tm_numbers_(remove), removed, tm_news_(add), added, first);
  if (status == TM_UNKNOWN || status == TM_RANGE) {
    uint64_t index = 0;
    uint32_t told = tm_raw_decorate_fault(session, doc, owner, tm_numbers_(remove), removed, tm_news_(add), added, status, &index);
    session->fault.index = told == TM_OK ? index : TM_NO_INDEX;
  }
  return status;
}

/* The decorations that overlap or touch the span: those of the owner, or all if `any` is set. They are sorted by start, end
 * and id. RANGE if the span is invalid. SHORT, MEMORY. */
static inline uint32_t tm_decos(tm_session *session, uint64_t doc, uint64_t start, uint64_t end, uint64_t owner, bool any, tm_decoration *out, size_t room, uint64_t *count) {
  return tm_raw_decos(session, doc, start, end, owner, any, tm_decorations_out_(out), room, count);
}

/* ---- Brackets */

/* The brackets of the lines from `first` to `last`, both included. A closing bracket closes the nearest open one of its kind;
 * those in between are never closed. `encoding`, a tm_encoding, is the unit of columns and lengths. RANGE if a line is missing,
 * `first` is above `last`, the encoding is invalid, or a bracket begins or ends inside a character, as half of a surrogate pair
 * may. SHORT, MEMORY. */
static inline uint32_t tm_brackets(tm_session *session, uint64_t doc, uint64_t first, uint64_t last, uint32_t encoding, tm_bracket *out, size_t room, uint64_t *count) {
  return tm_raw_brackets(session, doc, first, last, encoding, tm_brackets_out_(out), room, count);
}

/* ---- Script lines */

/* Answers a script line, given without its LF. A line without a document number is for document 0. The session keeps the reply;
 * sets `bytes` to its length. The reply itself says whether the line was accepted, and whether memory was short. */
static inline uint32_t tm_answer(tm_session *session, const char *line, size_t length, uint64_t *bytes) {
  return tm_raw_answer(session, tm_bytes_(line), length, bytes);
}

/* As many bytes of the last reply, from byte `from` on, as fit into `out`. The reply ends with an LF. RANGE if `from` is beyond
 * its end. */
static inline uint32_t tm_reply(tm_session *session, uint64_t from, char *out, size_t room, uint64_t *count) {
  return tm_raw_reply(session, from, tm_bytes_out_(out), room, count);
}

#endif
