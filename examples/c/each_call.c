/* Calls each function of the library once, with an error of each. Ends with 0 where each answered as it should. */
#include "textmodel.h"

#include <stdio.h>
#include <string.h>

static int failed;

static void wants(int line, uint32_t got, uint32_t wanted) {
  if (got != wanted) {
    printf("line %d: status %u in place of %u\n", line, (unsigned)got, (unsigned)wanted);
    failed = 1;
  }
}

static void equals(int line, uint64_t got, uint64_t wanted) {
  if (got != wanted) {
    printf("line %d: %llu in place of %llu\n", line, (unsigned long long)got, (unsigned long long)wanted);
    failed = 1;
  }
}

#define STATUS(call, wanted) wants(__LINE__, (call), (wanted))
#define EQUAL(got, wanted) equals(__LINE__, (uint64_t)(got), (uint64_t)(wanted))

/* Each call that changes a document answers this, also where it takes UTF-8. */
static void changes_answer(tm_session *d, uint64_t doc, uint32_t wanted) {
  const tm_opening utf16 = {.utf16 = u"a", .length = 1}, utf8 = {.utf8 = "a", .length = 1};
  const tm_place at = {1, 1};
  const tm_op op = {doc, 0, 0, 1, false};
  uint64_t n = 7;
  STATUS(tm_open(d, doc, &utf16), wanted);
  STATUS(tm_open(d, doc, &utf8), wanted);
  STATUS(tm_edit(d, doc, 0, 0, u"a", 1), wanted);
  STATUS(tm_edit_utf8(d, doc, 0, 0, "a", 1), wanted);
  STATUS(tm_edit_at(d, doc, at, at, TM_UTF8, u"a", 1), wanted);
  STATUS(tm_edit_at_utf8(d, doc, at, at, TM_UTF8, "a", 1), wanted);
  STATUS(tm_joint(d, &op, 1, u"a", 1), wanted);
  STATUS(tm_joint_utf8(d, &op, 1, "a", 1), wanted);
  STATUS(tm_undo(d, doc), wanted);
  STATUS(tm_redo(d, doc), wanted);
  STATUS(tm_stop(d, doc), wanted);
  STATUS(tm_set_eol(d, doc, TM_LF), wanted);
  STATUS(tm_replace_all(d, doc, u"a", 1, NULL, 0, &n), wanted);
  STATUS(tm_replace_all_utf8(d, doc, "a", 1, NULL, 0, &n), wanted);
  STATUS(tm_decorate(d, doc, 1, NULL, 0, NULL, 0, &n), wanted);
  EQUAL(n, 7);
}

/* The same of each question, which hands nothing out. */
static void questions_answer(tm_session *d, uint64_t doc, uint32_t wanted) {
  const tm_search utf16 = {.utf16 = u"a", .length = 1}, utf8 = {.utf8 = "a", .length = 1};
  uint64_t n = 7, m = 7;
  uint32_t kind = 7;
  tm_place place = {7, 7};
  tm_decoration decoration = {.id = 7};
  tm_partner partner = {.line = 7};
  STATUS(tm_can_undo(d, doc), wanted);
  STATUS(tm_can_redo(d, doc), wanted);
  STATUS(tm_kind(d, doc, &kind), wanted);
  STATUS(tm_len(d, doc, &n), wanted);
  STATUS(tm_line_count(d, doc, &n), wanted);
  STATUS(tm_versions(d, doc, &n, &m), wanted);
  STATUS(tm_position(d, doc, 0, TM_UTF16, &place), wanted);
  STATUS(tm_offset(d, doc, 1, 1, TM_UTF16, &n), wanted);
  STATUS(tm_value(d, doc, 0, 0, NULL, 0, &n), wanted);
  STATUS(tm_value_utf8(d, doc, 0, 0, NULL, 0, &n), wanted);
  STATUS(tm_line(d, doc, 1, NULL, 0, &n), wanted);
  STATUS(tm_line_utf8(d, doc, 1, NULL, 0, &n), wanted);
  STATUS(tm_read_into(d, doc, 0, NULL, 0, &n), wanted);
  STATUS(tm_read_into_utf8(d, doc, &m, NULL, 0, &n), wanted);
  STATUS(tm_stops(d, doc, 1, TM_UTF16, NULL, 0, &n), wanted);
  STATUS(tm_find(d, doc, &utf16, NULL, 0, &n), wanted);
  STATUS(tm_find(d, doc, &utf8, NULL, 0, &n), wanted);
  STATUS(tm_deco(d, doc, 1, &decoration), wanted);
  STATUS(tm_decos(d, doc, 0, 0, 0, true, NULL, 0, &n), wanted);
  STATUS(tm_brackets(d, doc, 1, 1, TM_UTF16, NULL, 0, &n), wanted);
  STATUS(tm_match(d, doc, 1, 1, TM_UTF16, &partner), wanted);
  STATUS(tm_level(d, doc, 1, 1, TM_UTF16, &n), wanted);
  EQUAL(n + m + kind + place.line + place.column + decoration.id + partner.line, 49);
}

/* The same of what is kept beside the text. */
static void copies_answer(tm_session *d, uint64_t doc, uint32_t wanted) {
  uint64_t n = 7, m = 7;
  tm_followed followed = {.version = 7};
  tm_change change = {.start = 7};
  STATUS(tm_snapshot(d, doc, &n), wanted);
  STATUS(tm_read(d, doc, 1, NULL, 0, &n), wanted);
  STATUS(tm_read_utf8(d, doc, 1, NULL, 0, &n), wanted);
  STATUS(tm_close(d, doc, 1), wanted);
  STATUS(tm_mirror(d, doc, &n), wanted);
  STATUS(tm_mirror_now(d, doc, &followed), wanted);
  STATUS(tm_send(d, doc, &n, &m), wanted);
  STATUS(tm_deliver(d, doc, 1, &followed), wanted);
  STATUS(tm_mirrored(d, doc, 1, NULL, 0, &n), wanted);
  STATUS(tm_mirrored_utf8(d, doc, 1, NULL, 0, &n), wanted);
  STATUS(tm_next_change(d, doc, &change), wanted);
  EQUAL(n + m + followed.version + change.start, 28);
}

static void all_answer(tm_session *d, uint64_t doc, uint32_t wanted) {
  changes_answer(d, doc, wanted);
  questions_answer(d, doc, wanted);
  copies_answer(d, doc, wanted);
}

static void empty_session(void) {
  tm_session d = {0};
  const tm_op ops[] = {{0, 0, 0, 1, false}, {1, 0, 0, 1, false}};
  uint64_t n = 7;
  all_answer(&d, 0, TM_EMPTY);
  all_answer(&d, 64, TM_EMPTY);
  STATUS(tm_edit_utf8(&d, 0, 0, 0, "\xFF", 1), TM_ENCODING);
  STATUS(tm_joint(&d, ops, 2, u"ab", 2), TM_EMPTY);
  EQUAL(d.fault.index, TM_NO_INDEX);
  STATUS(tm_change_text(&d, NULL, 0, &n), TM_EMPTY);
  STATUS(tm_change_text_utf8(&d, NULL, 0, &n), TM_EMPTY);
  STATUS(tm_answer(&d, NULL, 0, &n), TM_EMPTY);
  STATUS(tm_reply(&d, 0, NULL, 0, &n), TM_EMPTY);
  EQUAL(n, 7);
  STATUS(tm_free(&d), TM_OK);
}

/* A document above 63 is none. */
static void no_document(tm_session *d) {
  uint64_t n = 7;
  all_answer(d, 64, TM_UNKNOWN);
  all_answer(d, UINT64_MAX, TM_UNKNOWN);
  STATUS(tm_len(d, 63, &n), TM_OK);
  EQUAL(n, 0);
}

/* What is done to one document leaves the others. */
static void documents(tm_session *d) {
  uint64_t n;
  STATUS(tm_edit(d, 5, 0, 0, u"five", 4), TM_OK);
  STATUS(tm_len(d, 4, &n), TM_OK);
  EQUAL(n, 0);
  STATUS(tm_len(d, 5, &n), TM_OK);
  EQUAL(n, 4);
  STATUS(tm_can_undo(d, 6), TM_NOTHING);
  STATUS(tm_undo(d, 5), TM_OK);
}

static tm_opening opening(const uint16_t *text, size_t length) {
  tm_opening made = {.utf16 = text, .length = length};
  return made;
}

static tm_opening paired(const tm_pair *pairs, size_t pair_count, const uint16_t *brackets, size_t length) {
  tm_opening made = opening(u"begin < end", 11);
  made.pairs = pairs;
  made.pair_count = pair_count;
  made.brackets = brackets;
  made.brackets_length = length;
  return made;
}

static uint32_t level_in(tm_session *d, tm_opening made, uint64_t column, uint64_t *level) {
  uint32_t status = tm_open(d, 2, &made);
  return status == TM_OK ? tm_level(d, 2, 1, column, TM_UTF16, level) : status;
}

/* Comments and strings hide brackets. */
static void hiding(tm_session *d) {
  tm_opening made = opening(u"(/* ( */ \"(\" // (", 18);
  tm_hiding own = {u"--%", 3, 2, 0, 0};
  uint64_t level;
  STATUS(level_in(d, made, 19, &level), TM_OK);
  EQUAL(level, 4);
  made.hiding = &tm_hiding_c;
  STATUS(level_in(d, made, 19, &level), TM_OK);
  EQUAL(level, 1);
  made.hiding = &tm_hiding_python;
  STATUS(level_in(d, made, 19, &level), TM_OK);
  EQUAL(level, 3);
  made = opening(u"( %(% --(", 9);
  made.hiding = &own;
  STATUS(level_in(d, made, 10, &level), TM_OK);
  EQUAL(level, 1);
  own.line = 4;
  STATUS(level_in(d, made, 10, &level), TM_RANGE);
  own.line = 0;
  own.opening = 2;
  STATUS(level_in(d, made, 10, &level), TM_RANGE);
  own.opening = 0;
  STATUS(level_in(d, made, 10, &level), TM_RANGE);
}

static void open_text(tm_session *d) {
  static const uint16_t start[] = {'f', '(', 'x', ')', '\r', '\n', 0xD83D, 0xDE00};
  const tm_opening wrong = {.utf8 = "ab\xFF", .length = 3};
  tm_opening made = opening(start, 8);
  uint64_t n, m;
  uint32_t kind = 9;
  STATUS(tm_open(d, 0, &wrong), TM_ENCODING);
  EQUAL(d->fault.index, 2);
  made.ending = 3;
  STATUS(tm_open(d, 0, &made), TM_RANGE);
  made.ending = TM_MIXED;
  STATUS(tm_open(d, 0, &made), TM_OK);
  STATUS(tm_len(d, 0, &n), TM_OK);
  EQUAL(n, 8);
  STATUS(tm_line_count(d, 0, &n), TM_OK);
  EQUAL(n, 2);
  STATUS(tm_kind(d, 0, &kind), TM_OK);
  EQUAL(kind, 0);
  STATUS(tm_versions(d, 0, &n, &m), TM_OK);
  EQUAL(n, 1);
}

static void brackets_of_its_own(tm_session *d) {
  static const tm_pair pairs[] = {{5, 3}, {1, 1}};
  uint64_t level;
  STATUS(level_in(d, paired(pairs, 2, u"beginend<>", 9), 8, &level), TM_RANGE);
  STATUS(level_in(d, paired(pairs, 2, u"beginend<<", 10), 8, &level), TM_RANGE);
  STATUS(level_in(d, paired(NULL, 0, u"<>", 2), 8, &level), TM_RANGE);
  STATUS(level_in(d, paired(NULL, 0, NULL, 0), 8, &level), TM_OK);
  EQUAL(level, 0);
  STATUS(level_in(d, paired(pairs, 2, u"beginend<>", 10), 8, &level), TM_OK);
  EQUAL(level, 2);
}

static void position_is(tm_session *d, uint64_t offset, uint32_t encoding, uint64_t line, uint64_t column) {
  tm_place at = {0, 0};
  STATUS(tm_position(d, 0, offset, encoding, &at), TM_OK);
  EQUAL(at.line, line);
  EQUAL(at.column, column);
}

/* No call takes the column between a CR and its LF. */
static void positions(tm_session *d) {
  tm_place at;
  uint64_t n;
  STATUS(tm_position(d, 0, 7, TM_UTF16, &at), TM_NOTHING);
  STATUS(tm_position(d, 0, 9, TM_UTF8, &at), TM_NOTHING);
  STATUS(tm_position(d, 0, 6, 9, &at), TM_RANGE);
  position_is(d, 6, TM_UTF16, 2, 1);
  position_is(d, 8, TM_UTF16, 2, 3);
  position_is(d, 8, TM_UTF8, 2, 5);
  position_is(d, 8, TM_UTF32, 2, 2);
  position_is(d, 5, TM_UTF16, 1, 6);
  position_is(d, 5, TM_UTF8, 1, 6);
  position_is(d, 5, TM_UTF32, 1, 6);
  STATUS(tm_offset(d, 0, 1, 6, TM_UTF8, &n), TM_NOTHING);
}

static void offset_is(tm_session *d, uint64_t line, uint64_t column, uint32_t encoding, uint64_t offset) {
  uint64_t n = 0;
  STATUS(tm_offset(d, 0, line, column, encoding, &n), TM_OK);
  EQUAL(n, offset);
}

static void offsets(tm_session *d) {
  uint64_t n;
  STATUS(tm_offset(d, 0, 3, 1, TM_UTF16, &n), TM_NOTHING);
  STATUS(tm_offset(d, 0, 2, 3, 0, &n), TM_RANGE);
  STATUS(tm_offset(d, 0, 2, 3, TM_UTF8, &n), TM_NOTHING);
  STATUS(tm_offset(d, 0, 2, 0, TM_UTF32, &n), TM_NOTHING);
  offset_is(d, 2, 3, TM_UTF16, 8);
  offset_is(d, 2, 5, TM_UTF8, 8);
  offset_is(d, 2, 2, TM_UTF32, 8);
}

static void texts(tm_session *d) {
  uint16_t out[16];
  uint64_t n;
  STATUS(tm_value(d, 0, 0, 9, out, 16, &n), TM_RANGE);
  STATUS(tm_value(d, 0, 0, 4, out, 3, &n), TM_SHORT);
  EQUAL(n, 4);
  STATUS(tm_value(d, 0, 0, 4, out, 16, &n), TM_OK);
  EQUAL(out[3], ')');
  STATUS(tm_value(d, 0, 2, 2, NULL, 0, &n), TM_OK);
  EQUAL(n, 0);
  STATUS(tm_line(d, 0, 3, out, 16, &n), TM_RANGE);
  STATUS(tm_line(d, 0, 1, out, 3, &n), TM_SHORT);
  STATUS(tm_line(d, 0, 1, out, 16, &n), TM_OK);
  EQUAL(n, 4);
  STATUS(tm_read_into(d, 0, 6, out, 1, &n), TM_RANGE);
  STATUS(tm_read_into(d, 0, 7, out, 2, &n), TM_RANGE);
  STATUS(tm_read_into(d, 0, 6, out, 2, &n), TM_OK);
  EQUAL(n, 2);
  STATUS(tm_read_into(d, 0, 0, out, 7, &n), TM_OK);
  EQUAL(n, 6);
}

static void edits(tm_session *d) {
  static const uint16_t letters[] = {'a', 'b', 'c'};
  const tm_place first = {1, 1}, second = {1, 2}, ninth = {9, 1};
  const tm_opening made = {.utf8 = "f(x)\n[y]\n", .length = 9, .ending = TM_LF};
  uint64_t n;
  STATUS(tm_open(d, 0, &made), TM_OK);
  STATUS(tm_edit(d, 0, 9, 10, letters, 1), TM_RANGE);
  STATUS(tm_edit(d, 0, 0, 1, letters, 1), TM_OK);
  STATUS(tm_edit_at(d, 0, ninth, ninth, TM_UTF16, letters, 1), TM_RANGE);
  STATUS(tm_edit_at(d, 0, second, first, TM_UTF16, NULL, 0), TM_RANGE);
  STATUS(tm_edit_at(d, 0, first, second, 7, NULL, 0), TM_RANGE);
  STATUS(tm_edit_at(d, 0, first, second, TM_UTF8, NULL, 0), TM_OK);
  STATUS(tm_stop(d, 0), TM_OK);
  STATUS(tm_can_redo(d, 0), TM_NOTHING);
  STATUS(tm_redo(d, 0), TM_NOTHING);
  STATUS(tm_can_undo(d, 0), TM_OK);
  STATUS(tm_undo(d, 0), TM_OK);
  STATUS(tm_can_redo(d, 0), TM_OK);
  STATUS(tm_len(d, 0, &n), TM_OK);
  EQUAL(n, 9);
  STATUS(tm_set_eol(d, 0, 5), TM_RANGE);
  STATUS(tm_set_eol(d, 0, 1), TM_NOTHING);
  STATUS(tm_set_eol(d, 0, 2), TM_OK);
  STATUS(tm_set_eol(d, 0, 1), TM_OK);
}

/* Whether the document has this text. */
static void has_text(tm_session *d, uint64_t doc, const char *text) {
  char out[64];
  uint64_t n = 0, len = 0;
  STATUS(tm_len(d, doc, &len), TM_OK);
  STATUS(tm_value_utf8(d, doc, 0, len, out, 64, &n), TM_OK);
  EQUAL(n, strlen(text));
  EQUAL(memcmp(out, text, strlen(text)), 0);
}

/* Texts in UTF-8, in. What is not valid is told before all else. */
static void edits_utf8(tm_session *d) {
  const tm_opening made = {.utf8 = "a\xC3\xA9z", .length = 4};
  const tm_place behind = {1, 4}, inside = {1, 3};
  STATUS(tm_open(d, 8, &made), TM_OK);
  STATUS(tm_edit_utf8(d, 64, 9, 0, "ab\xC3", 3), TM_ENCODING);
  EQUAL(d->fault.index, 2);
  STATUS(tm_edit_utf8(d, 8, 4, 4, "x", 1), TM_RANGE);
  STATUS(tm_edit_utf8(d, 8, 3, 3, "\xE2\x82\xAC", 3), TM_OK);
  has_text(d, 8, "a\xC3\xA9z\xE2\x82\xAC");
  STATUS(tm_edit_at_utf8(d, 8, behind, behind, TM_UTF8, "\xFF", 1), TM_ENCODING);
  EQUAL(d->fault.index, 0);
  STATUS(tm_edit_at_utf8(d, 8, inside, inside, TM_UTF8, "x", 1), TM_RANGE);
  STATUS(tm_edit_at_utf8(d, 8, behind, behind, TM_UTF8, "\xC3\xA9", 2), TM_OK);
  has_text(d, 8, "a\xC3\xA9\xC3\xA9z\xE2\x82\xAC");
}

/* `units` of an edit counts bytes. The text of none may end inside a character. */
static void joint_utf8(tm_session *d) {
  const tm_op ops[] = {{8, 0, 0, 2, false}, {8, 3, 3, 3, false}}, cut[] = {{8, 0, 0, 1, false}, {8, 1, 1, 1, false}};
  STATUS(tm_joint_utf8(d, ops, 2, "\xC3\xA9\xE2\x82\xAC!", 6), TM_RANGE);
  EQUAL(d->fault.index, TM_NO_INDEX);
  STATUS(tm_joint_utf8(d, ops, 2, "\xC3\xA9\xC3\xA9", 4), TM_RANGE);
  EQUAL(d->fault.index, 1);
  STATUS(tm_joint_utf8(d, cut, 2, "\xC3\xA9", 2), TM_RANGE);
  EQUAL(d->fault.index, TM_NO_INDEX);
  STATUS(tm_joint_utf8(d, cut, 2, "a\xFF", 2), TM_ENCODING);
  EQUAL(d->fault.index, 1);
  STATUS(tm_joint_utf8(d, ops, 2, "\xC3\xA9\xE2\x82\xAC", 5), TM_OK);
  has_text(d, 8, "\xC3\xA9" "a\xC3\xA9\xC3\xA9\xE2\x82\xACz\xE2\x82\xAC");
}

static void searches_utf8(tm_session *d) {
  const tm_search e = {.utf8 = "\xC3\xA9", .length = 2}, wrong = {.utf8 = "a\x80", .length = 2};
  tm_found found[4];
  uint64_t n = 7;
  STATUS(tm_find(d, 8, &wrong, found, 4, &n), TM_ENCODING);
  EQUAL(d->fault.index, 1);
  EQUAL(n, 7);
  STATUS(tm_find(d, 8, &e, found, 4, &n), TM_OK);
  EQUAL(n, 3);
  EQUAL(found[2].start, 3);
  STATUS(tm_replace_all_utf8(d, 8, "\xFF", 1, "a", 1, &n), TM_ENCODING);
  EQUAL(d->fault.index, 0);
  STATUS(tm_replace_all_utf8(d, 8, "a", 1, "bc\xFF", 3, &n), TM_ENCODING);
  EQUAL(d->fault.index, 2);
  STATUS(tm_replace_all_utf8(d, 8, "a\xFF", 2, "bc\xFF", 3, &n), TM_ENCODING);
  EQUAL(d->fault.index, 1);
  STATUS(tm_replace_all_utf8(d, 8, NULL, 0, "a", 1, &n), TM_RANGE);
  STATUS(tm_replace_all_utf8(d, 8, "q", 1, "a", 1, &n), TM_NOTHING);
  STATUS(tm_replace_all_utf8(d, 8, "\xC3\xA9", 2, "-", 1, &n), TM_OK);
  EQUAL(n, 3);
  has_text(d, 8, "-a--\xE2\x82\xACz\xE2\x82\xAC");
}

/* Texts in UTF-8, out. Room for so many bytes is room for a third of as many units. */
static void utf8_out(tm_session *d) {
  const tm_opening made = {.utf8 = "a\xC3\xA9\xF0\x9F\x98\x80z\n", .length = 9};
  char out[16];
  uint64_t n, id, offset = 0;
  STATUS(tm_open(d, 9, &made), TM_OK);
  STATUS(tm_value_utf8(d, 9, 0, 3, out, 16, &n), TM_RANGE);
  STATUS(tm_value_utf8(d, 9, 0, 4, out, 6, &n), TM_SHORT);
  EQUAL(n, 7);
  STATUS(tm_value_utf8(d, 9, 0, 4, out, 7, &n), TM_OK);
  STATUS(tm_line_utf8(d, 9, 3, out, 16, &n), TM_RANGE);
  STATUS(tm_line_utf8(d, 9, 1, out, 7, &n), TM_SHORT);
  EQUAL(n, 8);
  STATUS(tm_read_into_utf8(d, 9, &offset, out, 5, &n), TM_RANGE);
  EQUAL(offset, 0);
  STATUS(tm_read_into_utf8(d, 9, &offset, out, 9, &n), TM_OK);
  EQUAL(offset, 2);
  EQUAL(n, 3);
  EQUAL(memcmp(out, "a\xC3\xA9", 3), 0);
  STATUS(tm_read_into_utf8(d, 9, &offset, out, 6, &n), TM_OK);
  EQUAL(offset, 4);
  EQUAL(memcmp(out, "\xF0\x9F\x98\x80", 4), 0);
  offset = 3;
  STATUS(tm_read_into_utf8(d, 9, &offset, out, 16, &n), TM_RANGE);
  STATUS(tm_snapshot(d, 9, &id), TM_OK);
  STATUS(tm_read_utf8(d, 9, id, out, 5, &n), TM_RANGE);
  STATUS(tm_read_utf8(d, 9, id + 1, out, 16, &n), TM_UNKNOWN);
  STATUS(tm_read_utf8(d, 9, id, out, 9, &n), TM_OK);
  EQUAL(n, 3);
  STATUS(tm_read_utf8(d, 9, id, out, 16, &n), TM_OK);
  EQUAL(n, 6);
  EQUAL(memcmp(out, "\xF0\x9F\x98\x80z\n", 6), 0);
  STATUS(tm_read_utf8(d, 9, id, out, 16, &n), TM_OK);
  EQUAL(n, 0);
}

/* A lone surrogate comes out as U+FFFD. */
static void lone_surrogate(tm_session *d) {
  static const uint16_t high[] = {0xD83D};
  const tm_opening made = {.utf16 = high, .length = 1};
  STATUS(tm_open(d, 9, &made), TM_OK);
  has_text(d, 9, "\xEF\xBF\xBD");
}

/* The first decoration with which a call is refused is told. */
static void decorate(tm_session *d) {
  const tm_new_decoration bad[] = {{0, 1, 0, false}, {0, 99, 0, false}, {0, 1, 4, false}}, good = {1, 3, 1, false};
  tm_decoration one, some[4];
  uint64_t n, id, next;
  STATUS(tm_decorate(d, 0, 1, NULL, 0, bad, 3, &id), TM_RANGE);
  EQUAL(d->fault.index, 1);
  STATUS(tm_decorate(d, 0, 1, NULL, 0, bad + 2, 1, &id), TM_RANGE);
  EQUAL(d->fault.index, 0);
  STATUS(tm_decorate(d, 0, 1, NULL, 0, bad, 1, &id), TM_OK);
  const uint64_t none[] = {id, 77}, twice[] = {id, id};
  STATUS(tm_decorate(d, 0, 1, none, 2, NULL, 0, &next), TM_UNKNOWN);
  EQUAL(d->fault.index, 1);
  STATUS(tm_decorate(d, 0, 1, twice, 2, bad, 2, &next), TM_UNKNOWN);
  EQUAL(d->fault.index, 1);
  STATUS(tm_decorate(d, 0, 2, none, 1, NULL, 0, &next), TM_UNKNOWN);
  EQUAL(d->fault.index, 0);
  STATUS(tm_decorate(d, 0, 1, none, 1, &good, 1, &id), TM_OK);
  STATUS(tm_deco(d, 0, id + 1, &one), TM_NOTHING);
  STATUS(tm_deco(d, 0, id, &one), TM_OK);
  EQUAL(one.start, 1);
  EQUAL(one.end, 3);
  STATUS(tm_decos(d, 0, 0, 99, 0, true, some, 4, &n), TM_RANGE);
  STATUS(tm_decos(d, 0, 0, 4, 0, true, NULL, 0, &n), TM_SHORT);
  STATUS(tm_decos(d, 0, 0, 4, 0, true, some, 4, &n), TM_OK);
  EQUAL(n, 1);
  STATUS(tm_decos(d, 0, 0, 4, 2, false, some, 4, &n), TM_OK);
  EQUAL(n, 0);
}

static void all_brackets(tm_session *d) {
  tm_bracket brackets[8];
  tm_partner partner;
  uint64_t n;
  STATUS(tm_brackets(d, 0, 2, 1, TM_UTF16, brackets, 8, &n), TM_RANGE);
  STATUS(tm_brackets(d, 0, 1, 2, 7, brackets, 8, &n), TM_RANGE);
  STATUS(tm_brackets(d, 0, 1, 2, TM_UTF16, brackets, 3, &n), TM_SHORT);
  EQUAL(n, 4);
  STATUS(tm_brackets(d, 0, 1, 2, TM_UTF16, brackets, 8, &n), TM_OK);
  EQUAL(brackets[0].column, 2);
  STATUS(tm_match(d, 0, 9, 9, TM_UTF16, &partner), TM_RANGE);
  STATUS(tm_match(d, 0, 1, 2, 7, &partner), TM_RANGE);
  STATUS(tm_match(d, 0, 1, 1, TM_UTF16, &partner), TM_NOTHING);
  STATUS(tm_match(d, 0, 1, 2, TM_UTF16, &partner), TM_OK);
  EQUAL(partner.column, 4);
  STATUS(tm_level(d, 0, 9, 9, TM_UTF16, &n), TM_RANGE);
  STATUS(tm_level(d, 0, 1, 3, 7, &n), TM_RANGE);
  STATUS(tm_level(d, 0, 1, 3, TM_UTF16, &n), TM_OK);
  EQUAL(n, 1);
}

/* Columns and lengths of brackets count bytes, units or code points. */
static void encodings(tm_session *d) {
  static const uint32_t kinds[] = {TM_UTF8, TM_UTF16, TM_UTF32};
  static const uint64_t columns[] = {7, 4, 3}, closing[] = {12, 7, 6}, lengths[] = {2, 1, 1}, stops[] = {3, 2, 2};
  const tm_pair pairs[] = {{1, 1}};
  tm_opening made = {.utf8 = "\xC3\xA9\xF0\x9F\x98\x80\xC2\xABx\xC3\xA9\xC2\xBB", .length = 13};
  tm_bracket brackets[2];
  tm_partner partner;
  uint64_t n, out[8];
  made.pairs = pairs, made.pair_count = 1, made.brackets = u"\u00AB\u00BB", made.brackets_length = 2;
  STATUS(tm_open(d, 10, &made), TM_OK);
  for (int at = 0; at < 3; at++) {
    STATUS(tm_brackets(d, 10, 1, 1, kinds[at], brackets, 2, &n), TM_OK);
    EQUAL(brackets[0].column, columns[at]);
    EQUAL(brackets[0].length, lengths[at]);
    STATUS(tm_match(d, 10, 1, columns[at], kinds[at], &partner), TM_OK);
    EQUAL(partner.column, closing[at]);
    EQUAL(partner.length, lengths[at]);
    STATUS(tm_level(d, 10, 1, closing[at], kinds[at], &n), TM_OK);
    EQUAL(n, 1);
    STATUS(tm_stops(d, 10, 1, kinds[at], out, 8, &n), TM_OK);
    EQUAL(n, 6);
    EQUAL(out[1], stops[at]);
    EQUAL(out[5], closing[at]);
  }
  STATUS(tm_level(d, 10, 1, 2, TM_UTF8, &n), TM_RANGE);
}

/* A bracket that is half of a pair of surrogates has a column in UTF-16 alone. */
static void half_bracket(tm_session *d) {
  static const uint16_t low_and_b[] = {0xDE00, 'b'};
  const tm_pair pairs[] = {{1, 1}};
  tm_opening made = {.utf8 = "\xF0\x9F\x98\x80" "b", .length = 5};
  tm_bracket brackets[2];
  tm_partner partner;
  uint64_t n;
  made.pairs = pairs, made.pair_count = 1, made.brackets = low_and_b, made.brackets_length = 2;
  STATUS(tm_open(d, 10, &made), TM_OK);
  STATUS(tm_brackets(d, 10, 1, 1, TM_UTF16, brackets, 2, &n), TM_OK);
  EQUAL(brackets[0].column, 2);
  STATUS(tm_brackets(d, 10, 1, 1, TM_UTF8, brackets, 2, &n), TM_RANGE);
  STATUS(tm_match(d, 10, 1, 5, TM_UTF8, &partner), TM_RANGE);
  STATUS(tm_match(d, 10, 1, 2, TM_UTF32, &partner), TM_RANGE);
}

static void searches(tm_session *d) {
  tm_found found[4];
  uint64_t n;
  tm_opening made = opening(u"abcabcab", 8);
  STATUS(tm_open(d, 0, &made), TM_OK);
  tm_search ab = {.utf16 = u"ab", .length = 2};
  const tm_search nothing = {.utf16 = NULL}, z = {.utf16 = u"z", .length = 1};
  STATUS(tm_find(d, 0, &nothing, found, 4, &n), TM_RANGE);
  STATUS(tm_find(d, 0, &z, NULL, 0, &n), TM_OK);
  EQUAL(n, 0);
  STATUS(tm_find(d, 0, &ab, found, 2, &n), TM_SHORT);
  EQUAL(n, 3);
  STATUS(tm_find(d, 0, &ab, found, 4, &n), TM_OK);
  EQUAL(n, 3);
  EQUAL(found[1].start, 3);
  EQUAL(found[2].end, 8);
  ab.from = 1, ab.most = 1;
  STATUS(tm_find(d, 0, &ab, found, 4, &n), TM_OK);
  EQUAL(n, 1);
  EQUAL(found[0].start, 3);
  ab.back = true, ab.from = 7, ab.most = 2;
  STATUS(tm_find(d, 0, &ab, found, 4, &n), TM_OK);
  EQUAL(n, 2);
  EQUAL(found[0].start, 3);
  EQUAL(found[1].start, 0);
}

/* It is one version, and one step of undo. */
static void replaces(tm_session *d) {
  uint64_t n = 7, before, after, alternative;
  STATUS(tm_versions(d, 0, &before, &alternative), TM_OK);
  STATUS(tm_replace_all(d, 0, NULL, 0, u"x", 1, &n), TM_RANGE);
  STATUS(tm_replace_all(d, 0, u"z", 1, u"x", 1, &n), TM_NOTHING);
  EQUAL(n, 7);
  STATUS(tm_replace_all(d, 0, u"ab", 2, NULL, 0, &n), TM_OK);
  EQUAL(n, 3);
  STATUS(tm_len(d, 0, &n), TM_OK);
  EQUAL(n, 2);
  STATUS(tm_undo(d, 0), TM_OK);
  STATUS(tm_len(d, 0, &n), TM_OK);
  EQUAL(n, 8);
  STATUS(tm_versions(d, 0, &after, &alternative), TM_OK);
  EQUAL(after, before + 2);
}

static void snapshots(tm_session *d) {
  uint16_t out[4];
  uint64_t n, id, stops[8];
  STATUS(tm_snapshot(d, 0, &id), TM_OK);
  STATUS(tm_read(d, 0, id + 1, out, 4, &n), TM_UNKNOWN);
  STATUS(tm_read(d, 0, id, out, 1, &n), TM_RANGE);
  STATUS(tm_read(d, 0, id, out, 4, &n), TM_OK);
  EQUAL(n, 4);
  STATUS(tm_close(d, 0, id), TM_OK);
  STATUS(tm_close(d, 0, id), TM_UNKNOWN);
  STATUS(tm_stops(d, 0, 9, TM_UTF16, stops, 8, &n), TM_RANGE);
  STATUS(tm_stops(d, 0, 1, 7, stops, 8, &n), TM_RANGE);
  STATUS(tm_stops(d, 0, 1, TM_UTF16, stops, 3, &n), TM_SHORT);
  STATUS(tm_stops(d, 0, 1, TM_UTF16, stops, 8, &n), TM_OK);
  EQUAL(n, 4);
}

static void script(tm_session *d) {
  static const char line[] = "{\"cmd\":\"level\",\"line\":1,\"col\":3}";
  char out[16];
  uint64_t n;
  STATUS(tm_answer(d, line, sizeof line - 1, &n), TM_OK);
  EQUAL(n, 5);
  STATUS(tm_reply(d, 6, out, 16, &n), TM_RANGE);
  STATUS(tm_reply(d, 3, out, 16, &n), TM_OK);
  EQUAL(n, 2);
  EQUAL(memcmp(out, "1\n", 2), 0);
  STATUS(tm_answer(d, NULL, 0, &n), TM_OK);
  EQUAL(n, 0);
  STATUS(tm_answer(d, "x", 1, &n), TM_OK);
  EQUAL(n, 9);
}

/* Edits of one document at once: a change like any other. */
static void of_one(tm_session *d) {
  const tm_op overlap[] = {{0, 0, 2, 1, false}, {0, 2, 3, 0, false}, {0, 1, 2, 1, false}};
  const tm_op two[] = {{0, 0, 0, 1, false}, {0, 9, 9, 2, false}};
  const tm_opening made = opening(u"f(x)\n[y]\n", 9);
  uint64_t n;
  STATUS(tm_open(d, 0, &made), TM_OK);
  STATUS(tm_joint(d, NULL, 0, NULL, 0), TM_RANGE);
  EQUAL(d->fault.index, TM_NO_INDEX);
  STATUS(tm_joint(d, overlap, 3, u"ab", 2), TM_OVERLAP);
  EQUAL(d->fault.index, 2);
  EQUAL(d->fault.doc, 0);
  STATUS(tm_joint(d, two, 2, u"ab", 2), TM_RANGE);
  EQUAL(d->fault.index, 1);
  STATUS(tm_joint(d, two, 2, u"abc", 3), TM_OK);
  STATUS(tm_len(d, 0, &n), TM_OK);
  EQUAL(n, 12);
  STATUS(tm_undo(d, 0), TM_OK);
  STATUS(tm_len(d, 0, &n), TM_OK);
  EQUAL(n, 9);
}

/* A joint edit that is refused tells the edit and its document. */
static void at_fault(tm_session *d, const tm_op *ops, size_t count, uint32_t wanted, uint64_t index) {
  STATUS(tm_joint(d, ops, count, NULL, 0), wanted);
  EQUAL(d->fault.index, index);
  EQUAL(d->fault.doc, ops[index].doc);
  STATUS(tm_joint_utf8(d, ops, count, NULL, 0), wanted);
  EQUAL(d->fault.index, index);
}

/* A step of documents 0 and 1 is undone in both, unless one of them made another since. */
static void several(tm_session *d) {
  const tm_op ops[] = {{0, 1, 1, 1, false}, {1, 0, 0, 1, false}, {1, 0, 0, 1, true}, {0, 0, 0, 0, false}};
  const tm_op no_document[] = {{0, 1, 1, 0, false}, {64, 0, 0, 0, false}};
  const tm_op again[] = {{0, 0, 0, 0, false}, {0, 0, 0, 0, false}, {1, 0, 0, 0, false}, {0, 0, 0, 0, false}};
  const tm_op no_span[] = {{0, 1, 1, 0, false}, {1, 0, 0, 0, false}, {1, 0, 1, 0, false}};
  const tm_op overlap[] = {{1, 0, 0, 0, false}, {0, 0, 1, 0, false}, {0, 0, 1, 0, false}};
  const tm_opening made = opening(u"a", 1);
  uint64_t n;
  STATUS(tm_open(d, 0, &made), TM_OK);
  STATUS(tm_joint(d, ops, 3, u"xyz!", 4), TM_RANGE);
  EQUAL(d->fault.index, TM_NO_INDEX);
  STATUS(tm_joint(d, ops, 3, u"xy", 2), TM_RANGE);
  EQUAL(d->fault.index, 2);
  EQUAL(d->fault.doc, 1);
  at_fault(d, no_document, 2, TM_UNKNOWN, 1);
  at_fault(d, again, 4, TM_UNKNOWN, 3);
  at_fault(d, no_span, 3, TM_RANGE, 2);
  at_fault(d, overlap, 3, TM_OVERLAP, 2);
  STATUS(tm_joint(d, ops, 3, u"xyz", 3), TM_OK);
  STATUS(tm_len(d, 1, &n), TM_OK);
  EQUAL(n, 2);
  STATUS(tm_edit(d, 1, 0, 0, u"z", 1), TM_OK);
  STATUS(tm_undo(d, 0), TM_JOINT);
  EQUAL(d->fault.doc, 1);
  STATUS(tm_len(d, 0, &n), TM_OK);
  EQUAL(n, 2);
  STATUS(tm_undo(d, 1), TM_OK);
  STATUS(tm_undo(d, 0), TM_OK);
  STATUS(tm_len(d, 0, &n), TM_OK);
  EQUAL(n, 1);
  STATUS(tm_len(d, 1, &n), TM_OK);
  EQUAL(n, 0);
  STATUS(tm_redo(d, 0), TM_OK);
  STATUS(tm_redo(d, 1), TM_OK);
  STATUS(tm_undo(d, 0), TM_JOINT);
}

/* Nor is it redone where one of them has another step to redo first. */
static void held_up(tm_session *d) {
  const tm_op both[] = {{11, 0, 0, 1, false}, {12, 0, 0, 1, false}};
  STATUS(tm_edit(d, 12, 0, 0, u"a", 1), TM_OK);
  STATUS(tm_joint(d, both, 2, u"bc", 2), TM_OK);
  STATUS(tm_undo(d, 11), TM_OK);
  STATUS(tm_undo(d, 12), TM_OK);
  STATUS(tm_redo(d, 11), TM_JOINT);
  EQUAL(d->fault.doc, 12);
  STATUS(tm_redo(d, 12), TM_OK);
  STATUS(tm_redo(d, 11), TM_OK);
  has_text(d, 12, "ca");
}

/* A mirror takes the changes of its document in their order. */
static void mirrors(tm_session *d) {
  const tm_opening made = opening(u"ab", 2);
  uint16_t out[4];
  char bytes[4];
  uint64_t n, from;
  tm_followed followed;
  STATUS(tm_open(d, 3, &made), TM_OK);
  STATUS(tm_mirror_now(d, 3, &followed), TM_NOTHING);
  STATUS(tm_send(d, 3, &n, &from), TM_NOTHING);
  STATUS(tm_mirrored(d, 3, 1, out, 4, &n), TM_UNKNOWN);
  STATUS(tm_mirror(d, 3, &n), TM_OK);
  EQUAL(n, 1);
  STATUS(tm_deliver(d, 3, 1, &followed), TM_UNKNOWN);
  STATUS(tm_edit(d, 3, 0, 0, u"x\n", 2), TM_OK);
  STATUS(tm_send(d, 3, &n, &from), TM_OK);
  EQUAL(n, 1);
  EQUAL(from, 1);
  STATUS(tm_undo(d, 3), TM_OK);
  STATUS(tm_send(d, 3, &n, &from), TM_OK);
  EQUAL(from, 2);
  STATUS(tm_deliver(d, 3, 2, &followed), TM_GAP);
  EQUAL(d->fault.have, 1);
  EQUAL(d->fault.need, 2);
  STATUS(tm_mirror_now(d, 3, &followed), TM_OK);
  EQUAL(followed.version, 1);
  EQUAL(followed.units, 2);
  EQUAL(followed.lines, 1);
  STATUS(tm_deliver(d, 3, 3, &followed), TM_UNKNOWN);
  STATUS(tm_deliver(d, 3, 1, &followed), TM_OK);
  EQUAL(followed.version, 2);
  EQUAL(followed.units, 4);
  EQUAL(followed.lines, 2);
  STATUS(tm_deliver(d, 3, 1, &followed), TM_NOTHING);
  STATUS(tm_mirrored(d, 3, 3, out, 4, &n), TM_RANGE);
  STATUS(tm_mirrored(d, 3, 2, out, 1, &n), TM_SHORT);
  EQUAL(n, 2);
  STATUS(tm_mirrored(d, 3, 2, out, 4, &n), TM_OK);
  EQUAL(out[1], 'b');
  STATUS(tm_mirrored_utf8(d, 3, 3, bytes, 4, &n), TM_RANGE);
  STATUS(tm_mirrored_utf8(d, 3, 2, bytes, 1, &n), TM_SHORT);
  STATUS(tm_mirrored_utf8(d, 3, 2, bytes, 4, &n), TM_OK);
  EQUAL(memcmp(bytes, "ab", 2), 0);
  STATUS(tm_open(d, 3, &made), TM_OK);
  STATUS(tm_mirror_now(d, 3, &followed), TM_NOTHING);
}

/* Whether an edit was told, whose text can be asked for. */
static void is_told(tm_session *d, uint32_t wanted) {
  uint16_t out[4];
  char bytes[8];
  uint64_t n = 7;
  STATUS(tm_change_text_utf8(d, bytes, 8, &n), wanted);
  STATUS(tm_change_text(d, out, 4, &n), wanted);
  if (wanted != TM_OK) EQUAL(n, 7);
}

/* Edits that were made at once are told from the last one to the first. It is told from its start again behind its end, and where another document
 * was asked for, a document was opened, or a line was answered. */
static void changes(tm_session *d) {
  const tm_opening made = opening(u"one two", 7);
  const tm_op two[] = {{4, 0, 3, 1, false}, {4, 4, 7, 2, false}};
  uint16_t out[4];
  char bytes[4];
  uint64_t n;
  tm_change change;
  STATUS(tm_open(d, 4, &made), TM_OK);
  STATUS(tm_next_change(d, 4, &change), TM_NOTHING);
  STATUS(tm_joint(d, two, 2, u"1z\u00E9", 3), TM_OK);
  for (int round = 0; round < 2; round++) {
    STATUS(tm_next_change(d, 4, &change), TM_OK);
    EQUAL(change.start, 4);
    EQUAL(change.end, 7);
    EQUAL(change.units, 2);
    STATUS(tm_change_text(d, NULL, 0, &n), TM_SHORT);
    EQUAL(n, 2);
    STATUS(tm_change_text(d, out, 4, &n), TM_OK);
    EQUAL(out[1], 0xE9);
    STATUS(tm_change_text_utf8(d, bytes, 2, &n), TM_SHORT);
    EQUAL(n, 3);
    STATUS(tm_change_text_utf8(d, bytes, 4, &n), TM_OK);
    EQUAL(memcmp(bytes, "z\xC3\xA9", 3), 0);
    STATUS(tm_next_change(d, 4, &change), TM_OK);
    EQUAL(change.start, 0);
    STATUS(tm_next_change(d, 4, &change), TM_NOTHING);
    is_told(d, TM_NOTHING);
  }
  STATUS(tm_next_change(d, 4, &change), TM_OK);
  STATUS(tm_next_change(d, 0, &change), TM_OK);
  STATUS(tm_next_change(d, 4, &change), TM_OK);
  EQUAL(change.start, 4);
  is_told(d, TM_OK);
  STATUS(tm_answer(d, NULL, 0, &n), TM_OK);
  is_told(d, TM_NOTHING);
  STATUS(tm_next_change(d, 4, &change), TM_OK);
  EQUAL(change.start, 4);
  STATUS(tm_open(d, 4, &(tm_opening){.utf8 = "\xFF", .length = 1}), TM_ENCODING);
  is_told(d, TM_OK);
  STATUS(tm_open(d, 4, &made), TM_OK);
  is_told(d, TM_NOTHING);
  STATUS(tm_edit(d, 4, 7, 7, u"!", 1), TM_OK);
  STATUS(tm_next_change(d, 4, &change), TM_OK);
  EQUAL(change.start, 7);
}

static void limits(tm_session *d) {
  static tm_new_decoration many[(1 << 20) + 1];
  const tm_opening made = opening(u"a", 1);
  uint64_t n, from, id;
  STATUS(tm_open(d, 6, &made), TM_OK);
  STATUS(tm_decorate(d, 6, 1, NULL, 0, many, (1 << 20) + 1, &id), TM_LIMIT);
  for (int at = 0; at < 1000; at++) STATUS(tm_snapshot(d, 6, &id), TM_OK);
  STATUS(tm_snapshot(d, 6, &id), TM_LIMIT);
  STATUS(tm_close(d, 6, id), TM_OK);
  STATUS(tm_snapshot(d, 6, &id), TM_OK);
  STATUS(tm_edit(d, 6, 0, 0, u"b", 1), TM_OK);
  for (int at = 0; at < 65536; at++) STATUS(tm_send(d, 6, &n, &from), TM_OK);
  STATUS(tm_send(d, 6, &n, &from), TM_LIMIT);
  STATUS(tm_open(d, 6, &made), TM_OK);
  STATUS(tm_snapshot(d, 6, &id), TM_OK);
  EQUAL(id, 1);
}

int main(void) {
  tm_session d = {0};
  empty_session();
  STATUS(tm_make(&d), TM_OK);
  no_document(&d);
  documents(&d);
  hiding(&d);
  brackets_of_its_own(&d);
  open_text(&d);
  positions(&d);
  offsets(&d);
  texts(&d);
  edits(&d);
  decorate(&d);
  all_brackets(&d);
  snapshots(&d);
  script(&d);
  searches(&d);
  replaces(&d);
  of_one(&d);
  several(&d);
  held_up(&d);
  edits_utf8(&d);
  joint_utf8(&d);
  searches_utf8(&d);
  utf8_out(&d);
  lone_surrogate(&d);
  encodings(&d);
  half_bracket(&d);
  mirrors(&d);
  changes(&d);
  limits(&d);
  STATUS(tm_make(&d), TM_OK);
  STATUS(tm_free(&d), TM_OK);
  STATUS(tm_free(&d), TM_OK);
  EQUAL(tm_version(), 10000);
  EQUAL(strcmp(tm_message(TM_OK), "ok"), 0);
  puts(failed ? "failed" : "ok");
  return failed;
}
