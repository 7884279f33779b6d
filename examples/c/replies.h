/* What the commands of a script answer, told by calls alone: each function makes the call of a command, or is given its
 * status, and prints the reply. */
#ifndef REPLIES_H
#define REPLIES_H

#include <inttypes.h>
#include <stdio.h>
#include <textmodel.h>

enum { REPLY_ROOM = 4096 };

static tm_session session;
static uint16_t units[REPLY_ROOM];
static uint64_t count; /* or another number that was told last */

/* Whether a call changed or told nothing, which is then the reply. */
static inline bool refused(uint32_t status) {
  static const char *const replies[] = {"ok", "ok none", "! unknown", "! range", "! overlap", "! limit",
                                        "! memory", "! encoding", "! empty", "! short"};
  const tm_fault *fault = &session.fault;
  if (status == TM_OK) return false;
  if (status == TM_JOINT) printf("! joint %" PRIu64 "\n", fault->doc);
  else if (status == TM_GAP) printf("! gap %" PRIu64 " %" PRIu64 "\n", fault->have, fault->need);
  else puts(status < sizeof replies / sizeof *replies ? replies[status] : "! ?");
  return true;
}

/* The same where the status is that of another refusal. */
static inline bool refused_as(uint32_t status, uint32_t from, uint32_t to) { return refused(status == from ? to : status); }

/* ---- Texts */

static inline void put_code(uint32_t code) {
  if (code < 0x80) {
    putchar((int)code);
  } else if (code < 0x800) {
    putchar((int)(0xC0 | code >> 6));
  } else if (code < 0x10000) {
    putchar((int)(0xE0 | code >> 12));
    putchar((int)(0x80 | (code >> 6 & 0x3F)));
  } else {
    putchar((int)(0xF0 | code >> 18));
    putchar((int)(0x80 | (code >> 12 & 0x3F)));
    putchar((int)(0x80 | (code >> 6 & 0x3F)));
  }
  if (code >= 0x80) putchar((int)(0x80 | (code & 0x3F)));
}

static inline void put_escaped(uint32_t code) {
  switch (code) {
    case '"': fputs("\\\"", stdout); break;
    case '\\': fputs("\\\\", stdout); break;
    case '\n': fputs("\\n", stdout); break;
    case '\r': fputs("\\r", stdout); break;
    case '\t': fputs("\\t", stdout); break;
    default:
      if (code < ' ') printf("\\u%04x", (unsigned)code);
      else put_code(code);
  }
}

static inline bool is_high(uint16_t unit) { return unit >> 10 == 0xD800 >> 10; }
static inline bool is_low(uint16_t unit) { return unit >> 10 == 0xDC00 >> 10; }

/* As a string of JSON in UTF-8. */
static inline void put_units(const uint16_t *text, uint64_t length) {
  putchar('"');
  for (uint64_t at = 0; at < length; at++) {
    uint32_t code = text[at];
    if (is_high(text[at]) && at + 1 < length && is_low(text[at + 1])) {
      code = 0x10000 + ((code & 0x3FF) << 10) + (text[++at] & 0x3FF);
    } else if (is_high(text[at]) || is_low(text[at])) {
      code = 0xFFFD;
    }
    put_escaped(code);
  }
  putchar('"');
}

/* ---- Replies to a status */

static inline void done(uint32_t status) {
  if (!refused(status)) puts("ok");
}

static inline void told_count(uint32_t status) {
  if (!refused(status)) printf("ok %" PRIu64 "\n", count);
}

static inline void told_units(uint32_t status) {
  if (refused(status)) return;
  printf("ok ");
  put_units(units, count);
  putchar('\n');
}

static inline void put_sizes(uint64_t doc) {
  uint64_t version, alternative, length, lines;
  tm_versions(&session, doc, &version, &alternative);
  tm_len(&session, doc, &length);
  tm_line_count(&session, doc, &lines);
  printf(" %" PRIu64 " %" PRIu64 " %" PRIu64, version, length, lines);
}

static inline void changed(uint32_t status, uint64_t doc) {
  if (refused(status)) return;
  printf("ok");
  put_sizes(doc);
  putchar('\n');
}

static inline void jointly_changed(uint32_t status, const uint64_t *docs, size_t documents) {
  if (refused(status)) return;
  printf("ok");
  for (size_t at = 0; at < documents; at++) {
    printf(" %" PRIu64, docs[at]);
    put_sizes(docs[at]);
  }
  putchar('\n');
}

/* ---- Replies to questions */

/* The offset of a position, for an edit of several ops; one beyond all texts where there is none. */
static inline uint64_t offset_at(uint64_t doc, uint64_t line, uint64_t column) {
  uint64_t offset = UINT64_MAX;
  tm_offset(&session, doc, line, column, TM_UTF16, &offset);
  return offset;
}

static inline void reply_size(uint64_t doc) {
  uint64_t length, lines;
  if (refused(tm_len(&session, doc, &length)) || refused(tm_line_count(&session, doc, &lines))) return;
  printf("ok %" PRIu64 " %" PRIu64 "\n", length, lines);
}

static inline void reply_version(uint64_t doc) {
  uint64_t version, alternative;
  if (refused(tm_versions(&session, doc, &version, &alternative))) return;
  printf("ok %" PRIu64 " %" PRIu64 "\n", version, alternative);
}

static inline void reply_line(uint64_t doc, uint64_t n) { told_units(tm_line(&session, doc, n, units, REPLY_ROOM, &count)); }

static inline void reply_value(uint64_t doc, uint64_t start, uint64_t end) {
  told_units(tm_value(&session, doc, start, end, units, REPLY_ROOM, &count));
}

static inline void reply_offset(uint64_t doc, uint64_t line, uint64_t column) {
  uint64_t offset;
  if (refused_as(tm_offset(&session, doc, line, column, TM_UTF16, &offset), TM_NOTHING, TM_RANGE)) return;
  printf("ok %" PRIu64 "\n", offset);
}

static inline void reply_position(uint64_t doc, uint64_t offset) {
  tm_place at;
  if (refused_as(tm_position(&session, doc, offset, TM_UTF16, &at), TM_NOTHING, TM_RANGE)) return;
  printf("ok %" PRIu64 " %" PRIu64 "\n", at.line, at.column);
}

static inline void reply_stops(uint64_t doc, uint64_t n) {
  uint64_t columns[REPLY_ROOM];
  if (refused(tm_stops(&session, doc, n, TM_UTF16, columns, REPLY_ROOM, &count))) return;
  printf("ok");
  for (uint64_t at = 0; at < count; at++) printf(" %" PRIu64, columns[at]);
  putchar('\n');
}

/* A script may not seek the empty text, which its checker calls a wrong line. */
static inline void reply_find(uint64_t doc, const uint16_t *sought, size_t length) {
  const tm_search search = {.utf16 = sought, .length = length};
  tm_found found[REPLY_ROOM];
  if (length == 0) puts("! syntax");
  if (length == 0 || refused(tm_find(&session, doc, &search, found, REPLY_ROOM, &count))) return;
  printf("ok");
  for (uint64_t at = 0; at < count; at++) printf(" %" PRIu64 " %" PRIu64, found[at].start, found[at].end);
  putchar('\n');
}

static inline void reply_decorate(uint64_t doc, uint64_t owner, const uint64_t *remove, size_t removed,
                                  const tm_new_decoration *add, size_t added) {
  if (refused(tm_decorate(&session, doc, owner, remove, removed, add, added, &count))) return;
  printf("ok %" PRIu64 " %zu\n", count, added);
}

static inline void reply_deco(uint64_t doc, uint64_t id) {
  tm_decoration it;
  if (refused_as(tm_deco(&session, doc, id, &it), TM_NOTHING, TM_UNKNOWN)) return;
  printf("ok %" PRIu64 " %" PRIu64 " %" PRIu64 " %" PRIu64 "\n", it.start, it.end, it.stick, it.owner);
}

static inline void reply_decos(uint64_t doc, uint64_t start, uint64_t end, uint64_t owner, bool any) {
  tm_decoration found[REPLY_ROOM];
  if (refused(tm_decos(&session, doc, start, end, owner, any, found, REPLY_ROOM, &count))) return;
  printf("ok");
  for (const tm_decoration *it = found; it < found + count; it++)
    printf(" %" PRIu64 " %" PRIu64 " %" PRIu64, it->id, it->start, it->end);
  putchar('\n');
}

static inline void reply_brackets(uint64_t doc, uint64_t first, uint64_t last) {
  tm_bracket found[REPLY_ROOM];
  if (refused(tm_brackets(&session, doc, first, last, TM_UTF16, found, REPLY_ROOM, &count))) return;
  printf("ok");
  for (const tm_bracket *it = found; it < found + count; it++) {
    printf(" %" PRIu64 " %" PRIu64 " %" PRIu64 " %" PRIu64, it->line, it->column, it->length, it->kind);
    printf(" %c %" PRIu64, "ocux"[it->state], it->level);
  }
  putchar('\n');
}

static inline void reply_match(uint64_t doc, uint64_t line, uint64_t column) {
  tm_partner it;
  if (refused(tm_match(&session, doc, line, column, TM_UTF16, &it))) return;
  printf("ok %" PRIu64 " %" PRIu64 " %" PRIu64 "\n", it.line, it.column, it.length);
}

/* ---- Replies of mirrors and changes */

static inline void reply_mirror(uint64_t doc) { told_count(tm_mirror(&session, doc, &count)); }

static inline void reply_send(uint64_t doc) {
  uint64_t number, from;
  if (refused(tm_send(&session, doc, &number, &from))) return;
  printf("ok %" PRIu64 " %" PRIu64 "\n", number, from);
}

static inline void reply_deliver(uint64_t doc, uint64_t number) {
  tm_followed it;
  uint32_t status = tm_deliver(&session, doc, number, &it);
  if (status == TM_NOTHING) puts("ok old");
  else if (!refused(status)) printf("ok %" PRIu64 " %" PRIu64 " %" PRIu64 "\n", it.version, it.units, it.lines);
}

static inline void reply_changes(uint64_t doc) {
  uint64_t version, alternative;
  tm_change it;
  if (refused(tm_versions(&session, doc, &version, &alternative))) return;
  printf("ok %" PRIu64, version);
  while (tm_next_change(&session, doc, &it) == TM_OK) {
    tm_change_text(&session, units, REPLY_ROOM, &count);
    printf(" %" PRIu64 " %" PRIu64 " ", it.start, it.end);
    put_units(units, count);
  }
  putchar('\n');
}

#endif
