/* Decorations and brackets. */
#include "addon.h"

#include <stdlib.h>

enum { NEW_NUMBERS = 4, DECORATION_NUMBERS = 6, BRACKET_NUMBERS = 6 };

/* ---- Decorations */

static tm_new_decoration new_of(const double *n) {
  return (tm_new_decoration){.start = number_of(n[0]), .end = number_of(n[1]), .stick = number_of(n[2]), .collapse = n[3] != 0};
}

static uint32_t decorate(call *c, uint64_t doc, uint64_t owner, const double *removed, size_t removes, const double *added,
                         size_t adds, uint64_t *first) {
  uint64_t *remove = malloc((removes + 1) * sizeof *remove);
  tm_new_decoration *add = malloc((adds + 1) * sizeof *add);
  uint32_t status = TM_MEMORY;
  for (size_t at = 0; remove && at < removes; at++) remove[at] = number_of(removed[at]);
  for (size_t at = 0; add && at < adds; at++) add[at] = new_of(added + at * NEW_NUMBERS);
  if (remove && add) status = tm_decorate(c->model, doc, owner, remove, removes, add, adds, first);
  free(add);
  free(remove);
  return status;
}

/* decorate(doc, owner, ids to remove, start, end, stick and collapse of each new one) -> out: id of the first */
napi_value method_decorate(napi_env env, napi_callback_info info) {
  call c;
  size_t removes, numbers;
  uint64_t first = 0;
  if (!begin_call(&c, env, info)) return NULL;
  uint64_t doc = number_at(&c, 0), owner = number_at(&c, 1);
  const double *removed = numbers_at(&c, 2, &removes), *added = numbers_at(&c, 3, &numbers);
  if (!c.ok) return failed(&c);
  uint32_t status = decorate(&c, doc, owner, removed, removes, added, numbers / NEW_NUMBERS, &first);
  return tell_numbers(&c, status, 1, &first);
}

/* decoration(doc, id) -> out: id, owner, start, end, stick, collapse */
napi_value method_decoration(napi_env env, napi_callback_info info) {
  call c;
  tm_decoration it = {0};
  if (!begin_call(&c, env, info)) return NULL;
  uint64_t doc = number_at(&c, 0), id = number_at(&c, 1);
  uint32_t status = c.ok ? tm_deco(c.model, doc, id, &it) : TM_NOTHING;
  const uint64_t numbers[] = {it.id, it.owner, it.start, it.end, it.stick, it.collapse};
  return c.ok ? tell_numbers(&c, status, DECORATION_NUMBERS, numbers) : failed(&c);
}

static uint32_t asked_decorations(const question *q, void *out, size_t room, uint64_t *count) {
  return tm_decos(q->model, q->doc, q->first, q->last, q->owner, q->any, out, room, count);
}

static void put_decoration(double *numbers, const tm_decoration *it) {
  numbers[0] = (double)it->id;
  numbers[1] = (double)it->owner;
  numbers[2] = (double)it->start;
  numbers[3] = (double)it->end;
  numbers[4] = (double)it->stick;
  numbers[5] = it->collapse;
}

static napi_value tell_decorations(call *c, uint32_t status, const room *r) {
  napi_value array = NULL;
  const tm_decoration *found = r->at;
  if (status != TM_OK) return tell(c, status);
  double *numbers = new_numbers(c, DECORATION_NUMBERS * r->count, &array);
  for (uint64_t at = 0; c->ok && at < r->count; at++) put_decoration(numbers + DECORATION_NUMBERS * at, found + at);
  return c->ok ? array : NULL;
}

/* decorations(doc, start, end, owner, any): numbers as of decoration, or a status */
napi_value method_decorations(napi_env env, napi_callback_info info) {
  call c;
  room r;
  if (!begin_call(&c, env, info)) return NULL;
  question q = {.model = c.model, .doc = number_at(&c, 0), .first = number_at(&c, 1), .last = number_at(&c, 2)};
  q.owner = number_at(&c, 3);
  q.any = flag_at(&c, 4);
  if (!c.ok) return failed(&c);
  uint32_t status = ask(&r, asked_decorations, &q, sizeof(tm_decoration), 0);
  napi_value result = tell_decorations(&c, status, &r);
  drop_room(&r);
  return result;
}

/* ---- Brackets */

static uint32_t asked_brackets(const question *q, void *out, size_t room, uint64_t *count) {
  return tm_brackets(q->model, q->doc, q->first, q->last, q->encoding, out, room, count);
}

static void put_bracket(double *numbers, const tm_bracket *it) {
  numbers[0] = (double)(it->line - 1);
  numbers[1] = (double)(it->column - 1);
  numbers[2] = (double)it->length;
  numbers[3] = (double)it->kind;
  numbers[4] = (double)it->level;
  numbers[5] = it->state;
}

static napi_value tell_brackets(call *c, uint32_t status, const room *r) {
  napi_value array = NULL;
  const tm_bracket *found = r->at;
  if (status != TM_OK) return tell(c, status);
  double *numbers = new_numbers(c, BRACKET_NUMBERS * r->count, &array);
  for (uint64_t at = 0; c->ok && at < r->count; at++) put_bracket(numbers + BRACKET_NUMBERS * at, found + at);
  return c->ok ? array : NULL;
}

/* brackets(doc, first line, last line, encoding): line, character, length, kind, level and state of each, or a status */
napi_value method_brackets(napi_env env, napi_callback_info info) {
  call c;
  room r;
  if (!begin_call(&c, env, info)) return NULL;
  question q = {.model = c.model, .doc = number_at(&c, 0), .first = ordinal_at(&c, 1), .last = ordinal_at(&c, 2)};
  q.encoding = (uint32_t)number_at(&c, 3);
  if (!c.ok) return failed(&c);
  uint32_t status = ask(&r, asked_brackets, &q, sizeof(tm_bracket), 0);
  napi_value result = tell_brackets(&c, status, &r);
  drop_room(&r);
  return result;
}

/* match(doc, line, character, encoding) -> out: line, character, length */
napi_value method_match(napi_env env, napi_callback_info info) {
  call c;
  tm_partner it = {1, 1, 0};
  if (!begin_call(&c, env, info)) return NULL;
  uint64_t doc = number_at(&c, 0), line = ordinal_at(&c, 1), column = ordinal_at(&c, 2), encoding = number_at(&c, 3);
  uint32_t status = c.ok ? tm_match(c.model, doc, line, column, (uint32_t)encoding, &it) : TM_NOTHING;
  const uint64_t numbers[] = {it.line - 1, it.column - 1, it.length};
  return c.ok ? tell_numbers(&c, status, 3, numbers) : failed(&c);
}

/* level(doc, line, character, encoding) -> out: level */
napi_value method_level(napi_env env, napi_callback_info info) {
  call c;
  uint64_t level = 0;
  if (!begin_call(&c, env, info)) return NULL;
  uint64_t doc = number_at(&c, 0), line = ordinal_at(&c, 1), column = ordinal_at(&c, 2), encoding = number_at(&c, 3);
  return c.ok ? tell_numbers(&c, tm_level(c.model, doc, line, column, (uint32_t)encoding, &level), 1, &level) : failed(&c);
}
