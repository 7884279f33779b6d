/* Questions about a text: its sizes, its parts, places in it, and search. */
#include "addon.h"

/* ---- Sizes */

static napi_value count_of(napi_env env, napi_callback_info info, uint32_t (*counts)(tm_session *, uint64_t, uint64_t *)) {
  call c;
  uint64_t count = 0;
  if (!begin_call(&c, env, info)) return NULL;
  uint64_t doc = number_at(&c, 0);
  return c.ok ? tell_numbers(&c, counts(c.model, doc, &count), 1, &count) : failed(&c);
}

/* length(doc) -> out: units */
napi_value method_length(napi_env env, napi_callback_info info) { return count_of(env, info, tm_len); }

/* lineCount(doc) -> out: lines */
napi_value method_lineCount(napi_env env, napi_callback_info info) { return count_of(env, info, tm_line_count); }

/* versions(doc) -> out: version, alternative */
napi_value method_versions(napi_env env, napi_callback_info info) {
  call c;
  uint64_t versions[2] = {0, 0};
  if (!begin_call(&c, env, info)) return NULL;
  uint64_t doc = number_at(&c, 0);
  return c.ok ? tell_numbers(&c, tm_versions(c.model, doc, &versions[0], &versions[1]), 2, versions) : failed(&c);
}

static uint32_t ending_of(tm_session *model, uint64_t doc, uint64_t *ending) {
  uint32_t kind = 0, status = tm_kind(model, doc, &kind);
  *ending = kind;
  return status;
}

/* ending(doc) -> out: kind of line endings */
napi_value method_ending(napi_env env, napi_callback_info info) { return count_of(env, info, ending_of); }

/* ---- Parts */

static uint32_t asked_value(const question *q, void *out, size_t room, uint64_t *count) {
  return tm_value(q->model, q->doc, q->first, q->last, out, room, count);
}

static uint32_t asked_line(const question *q, void *out, size_t room, uint64_t *count) {
  return tm_line(q->model, q->doc, q->first, out, room, count);
}

/* The greatest length of a span in units; the span may be invalid. */
static uint64_t units_in(const question *q) {
  uint64_t length = 0, end = q->last;
  if (tm_len(q->model, q->doc, &length) == TM_OK && end > length) end = length;
  return q->first < end ? end - q->first : 0;
}

static napi_value string_of(call *c, asks *asked, const question *q, uint64_t expected) {
  room r;
  if (!c->ok) return failed(c);
  uint32_t status = ask(&r, asked, q, sizeof(uint16_t), expected);
  napi_value result = tell_string(c, status, &r);
  drop_room(&r);
  return result;
}

/* value(doc, start, end): a string, or a status */
napi_value method_value(napi_env env, napi_callback_info info) {
  call c;
  if (!begin_call(&c, env, info)) return NULL;
  question q = {.model = c.model, .doc = number_at(&c, 0), .first = number_at(&c, 1), .last = number_at(&c, 2)};
  return string_of(&c, asked_value, &q, c.ok ? units_in(&q) : 0);
}

/* line(doc, line): a string, or a status */
napi_value method_line(napi_env env, napi_callback_info info) {
  call c;
  if (!begin_call(&c, env, info)) return NULL;
  question q = {.model = c.model, .doc = number_at(&c, 0), .first = ordinal_at(&c, 1)};
  return string_of(&c, asked_line, &q, 0);
}

/* ---- Places */

static napi_value tell_place(call *c, uint32_t status, tm_place place) {
  const uint64_t numbers[] = {place.line - 1, place.column - 1};
  return tell_numbers(c, status, 2, numbers);
}

/* position(doc, offset, encoding) -> out: line, character */
napi_value method_position(napi_env env, napi_callback_info info) {
  call c;
  tm_place place = {1, 1};
  if (!begin_call(&c, env, info)) return NULL;
  uint64_t doc = number_at(&c, 0), offset = number_at(&c, 1), encoding = number_at(&c, 2);
  return c.ok ? tell_place(&c, tm_position(c.model, doc, offset, (uint32_t)encoding, &place), place) : failed(&c);
}

/* offset(doc, line, character, encoding) -> out: offset */
napi_value method_offset(napi_env env, napi_callback_info info) {
  call c;
  uint64_t offset = 0;
  if (!begin_call(&c, env, info)) return NULL;
  uint64_t doc = number_at(&c, 0), line = ordinal_at(&c, 1), column = ordinal_at(&c, 2), encoding = number_at(&c, 3);
  return c.ok ? tell_numbers(&c, tm_offset(c.model, doc, line, column, (uint32_t)encoding, &offset), 1, &offset) : failed(&c);
}

/* ---- The nearest places, in a document of mixed line endings. A place between a CR and its LF counts as the one before, as
 * each line ends before its ending. A place inside a pair of surrogates is one here: columns count units. */

static bool follows_cr(tm_session *model, uint64_t doc, uint64_t offset) {
  uint16_t unit = 0;
  uint64_t count;
  return offset > 0 && tm_value(model, doc, offset - 1, offset, &unit, 1, &count) == TM_OK && unit == '\r';
}

static uint32_t near_position(tm_session *model, uint64_t doc, uint64_t offset, tm_place *place) {
  uint64_t length;
  uint32_t status = tm_len(model, doc, &length);
  if (status != TM_OK) return status;
  if (offset > length) offset = length;
  status = tm_position(model, doc, offset, TM_UTF16, place);
  if (status == TM_NOTHING) {
    status = tm_position(model, doc, offset - 1, TM_UTF16, place);
    place->column += 1;
  } else if (status == TM_OK && place->column > 1 && follows_cr(model, doc, offset)) {
    place->column -= 1;
  }
  return status;
}

/* nearPosition(doc, offset) -> out: line, character */
napi_value method_nearPosition(napi_env env, napi_callback_info info) {
  call c;
  tm_place place = {1, 1};
  if (!begin_call(&c, env, info)) return NULL;
  uint64_t doc = number_at(&c, 0), offset = number_at(&c, 1);
  return c.ok ? tell_place(&c, near_position(c.model, doc, offset, &place), place) : failed(&c);
}

/* The end of a line that is not the last one, before its line ending. */
static uint64_t content_end(tm_session *model, uint64_t doc, uint64_t start, uint64_t next) {
  uint16_t last[2] = {0, 0};
  uint64_t count;
  bool is_told = next >= start + 2 && tm_value(model, doc, next - 2, next, last, 2, &count) == TM_OK;
  bool is_crlf = is_told && last[0] == '\r' && last[1] == '\n';
  return next - (is_crlf ? 2 : 1);
}

typedef struct near {
  uint64_t offset;
  uint64_t is_inside;
} near;

/* The offset of a position that is no place: inside a pair, or else the end of the line, or of the text. */
static uint32_t far_offset(tm_session *model, uint64_t doc, uint64_t line, uint64_t units, near *found) {
  uint64_t start, end, next;
  uint32_t status = tm_len(model, doc, &end);
  found->offset = end;
  if (status != TM_OK || tm_offset(model, doc, line, 1, TM_UTF16, &start) != TM_OK) return status;
  if (tm_offset(model, doc, line + 1, 1, TM_UTF16, &next) == TM_OK) end = content_end(model, doc, start, next);
  found->is_inside = units < end - start;
  found->offset = found->is_inside ? start + units : end;
  return TM_OK;
}

static uint32_t near_offset(tm_session *model, uint64_t doc, uint64_t line, uint64_t column, near *found) {
  uint32_t status = tm_offset(model, doc, line, column, TM_UTF16, &found->offset);
  if (status == TM_NOTHING) return far_offset(model, doc, line, column - 1, found);
  if (status == TM_OK && column > 1 && follows_cr(model, doc, found->offset)) found->offset -= 1;
  return status;
}

/* nearOffset(doc, line, character) -> out: offset, and whether it is inside a pair */
napi_value method_nearOffset(napi_env env, napi_callback_info info) {
  call c;
  near found = {0, 0};
  if (!begin_call(&c, env, info)) return NULL;
  uint64_t doc = number_at(&c, 0), line = ordinal_at(&c, 1), column = ordinal_at(&c, 2);
  uint32_t status = c.ok ? near_offset(c.model, doc, line, column, &found) : TM_NOTHING;
  const uint64_t numbers[] = {found.offset, found.is_inside};
  return c.ok ? tell_numbers(&c, status, 2, numbers) : failed(&c);
}

/* ---- Lists */

static uint32_t asked_stops(const question *q, void *out, size_t room, uint64_t *count) {
  return tm_stops(q->model, q->doc, q->first, q->encoding, out, room, count);
}

static napi_value tell_stops(call *c, uint32_t status, const room *r) {
  napi_value array = NULL;
  const uint64_t *columns = r->at;
  if (status != TM_OK) return tell(c, status);
  double *numbers = new_numbers(c, r->count, &array);
  for (uint64_t at = 0; c->ok && at < r->count; at++) numbers[at] = (double)(columns[at] - 1);
  return c->ok ? array : NULL;
}

/* stops(doc, line, encoding): numbers, or a status */
napi_value method_stops(napi_env env, napi_callback_info info) {
  call c;
  room r;
  if (!begin_call(&c, env, info)) return NULL;
  question q = {.model = c.model, .doc = number_at(&c, 0), .first = ordinal_at(&c, 1), .encoding = (uint32_t)number_at(&c, 2)};
  if (!c.ok) return failed(&c);
  uint32_t status = ask(&r, asked_stops, &q, sizeof(uint64_t), 0);
  napi_value result = tell_stops(&c, status, &r);
  drop_room(&r);
  return result;
}

static uint32_t asked_find(const question *q, void *out, size_t room, uint64_t *count) {
  return tm_find(q->model, q->doc, q->search, out, room, count);
}

static napi_value tell_spans(call *c, uint32_t status, const room *r) {
  napi_value array = NULL;
  const tm_found *spans = r->at;
  if (status != TM_OK) return tell(c, status);
  double *numbers = new_numbers(c, 2 * r->count, &array);
  for (uint64_t at = 0; c->ok && at < r->count; at++) {
    numbers[2 * at] = (double)spans[at].start;
    numbers[2 * at + 1] = (double)spans[at].end;
  }
  return c->ok ? array : NULL;
}

static napi_value find(call *c, const question *q) {
  room r;
  uint32_t status = ask(&r, asked_find, q, sizeof(tm_found), 0);
  napi_value result = tell_spans(c, status, &r);
  drop_room(&r);
  return result;
}

/* find(doc, sought, from, back, most): numbers, or a status */
napi_value method_find(napi_env env, napi_callback_info info) {
  call c;
  text sought;
  if (!begin_call(&c, env, info)) return NULL;
  uint64_t doc = number_at(&c, 0);
  take_text(&c, 1, &sought);
  tm_search search = {.utf16 = sought.units, .length = sought.length, .from = number_at(&c, 2), .back = flag_at(&c, 3)};
  search.most = number_at(&c, 4);
  question q = {.model = c.model, .doc = doc, .search = &search};
  napi_value result = c.ok ? find(&c, &q) : failed(&c);
  drop_text(&sought);
  return result;
}
