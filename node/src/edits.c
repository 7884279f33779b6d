/* Calls that change a text, and what the last change did. */
#include "addon.h"

#include <stdlib.h>

enum { OP_NUMBERS = 5, CHANGE_VALUES = 3 };

/* edit(doc, start, end, text) */
napi_value method_edit(napi_env env, napi_callback_info info) {
  call c;
  text new;
  if (!begin_call(&c, env, info)) return NULL;
  uint64_t doc = number_at(&c, 0), start = number_at(&c, 1), end = number_at(&c, 2);
  take_text(&c, 3, &new);
  uint32_t status = c.ok ? tm_edit(c.model, doc, start, end, new.units, new.length) : TM_NOTHING;
  if (c.ok && status == TM_OK) hold(&c, doc, (int64_t)new.length);
  drop_text(&new);
  return c.ok ? tell(&c, status) : failed(&c);
}

/* editAt(doc, line, character, end line, end character, encoding, text) */
napi_value method_editAt(napi_env env, napi_callback_info info) {
  call c;
  text new;
  if (!begin_call(&c, env, info)) return NULL;
  uint64_t doc = number_at(&c, 0);
  tm_place from = {ordinal_at(&c, 1), ordinal_at(&c, 2)}, to = {ordinal_at(&c, 3), ordinal_at(&c, 4)};
  uint64_t encoding = number_at(&c, 5);
  take_text(&c, 6, &new);
  uint32_t status = c.ok ? tm_edit_at(c.model, doc, from, to, (uint32_t)encoding, new.units, new.length) : TM_NOTHING;
  if (c.ok && status == TM_OK) hold(&c, doc, (int64_t)new.length);
  drop_text(&new);
  return c.ok ? tell(&c, status) : failed(&c);
}

/* ---- Several edits */

static tm_op op_of(const double *n) {
  return (tm_op){.doc = number_of(n[0]), .start = number_of(n[1]), .end = number_of(n[2]), .units = number_of(n[3]), .force = n[4] != 0};
}

static tm_op *ops_at(call *c, size_t at, size_t *count) {
  size_t numbers;
  const double *given = numbers_at(c, at, &numbers);
  *count = numbers / OP_NUMBERS;
  tm_op *ops = malloc((*count + 1) * sizeof *ops);
  if (!ops) fail_memory(c);
  for (size_t it = 0; c->ok && it < *count; it++) ops[it] = op_of(given + it * OP_NUMBERS);
  return ops;
}

static uint32_t edit_jointly(call *c, const tm_op *ops, size_t count, const text *texts) {
  uint32_t status = tm_joint(c->model, ops, count, texts->units, texts->length);
  for (size_t it = 0; status == TM_OK && it < count; it++) hold(c, ops[it].doc, (int64_t)ops[it].units);
  return status;
}

/* joint(doc, start, end, units and force of each edit, their texts) */
napi_value method_joint(napi_env env, napi_callback_info info) {
  call c;
  text texts;
  size_t count;
  if (!begin_call(&c, env, info)) return NULL;
  tm_op *ops = ops_at(&c, 0, &count);
  take_text(&c, 1, &texts);
  napi_value result = c.ok ? tell(&c, edit_jointly(&c, ops, count, &texts)) : failed(&c);
  drop_text(&texts);
  free(ops);
  return result;
}

/* replaceAll(doc, sought, with) -> out: how many */
napi_value method_replaceAll(napi_env env, napi_callback_info info) {
  call c;
  text sought, with;
  uint64_t count = 0;
  if (!begin_call(&c, env, info)) return NULL;
  uint64_t doc = number_at(&c, 0);
  take_text(&c, 1, &sought);
  take_text(&c, 2, &with);
  uint32_t status =
    c.ok ? tm_replace_all(c.model, doc, sought.units, sought.length, with.units, with.length, &count) : TM_NOTHING;
  if (c.ok && status == TM_OK) hold(&c, doc, (int64_t)(count * with.length));
  drop_text(&with);
  drop_text(&sought);
  return c.ok ? tell_numbers(&c, status, 1, &count) : failed(&c);
}

/* ---- History and line endings */

static napi_value on_document(napi_env env, napi_callback_info info, uint32_t (*does)(tm_session *, uint64_t)) {
  call c;
  if (!begin_call(&c, env, info)) return NULL;
  uint64_t doc = number_at(&c, 0);
  return c.ok ? tell(&c, does(c.model, doc)) : failed(&c);
}

/* undo(doc) and so on */
napi_value method_undo(napi_env env, napi_callback_info info) { return on_document(env, info, tm_undo); }
napi_value method_redo(napi_env env, napi_callback_info info) { return on_document(env, info, tm_redo); }
napi_value method_canUndo(napi_env env, napi_callback_info info) { return on_document(env, info, tm_can_undo); }
napi_value method_canRedo(napi_env env, napi_callback_info info) { return on_document(env, info, tm_can_redo); }
napi_value method_stop(napi_env env, napi_callback_info info) { return on_document(env, info, tm_stop); }

/* setEnding(doc, ending) */
napi_value method_setEnding(napi_env env, napi_callback_info info) {
  call c;
  if (!begin_call(&c, env, info)) return NULL;
  uint64_t doc = number_at(&c, 0), ending = number_at(&c, 1);
  return c.ok ? tell(&c, tm_set_eol(c.model, doc, (uint32_t)ending)) : failed(&c);
}

/* ---- What the last change did */

static uint32_t asked_change_text(const question *q, void *out, size_t room, uint64_t *count) {
  return tm_change_text(q->model, out, room, count);
}

static void put_number(call *c, napi_value array, uint32_t at, uint64_t n) {
  napi_value value;
  c->ok = c->ok && checked(c->env, napi_create_double(c->env, (double)n, &value))
    && checked(c->env, napi_set_element(c->env, array, at, value));
}

static void put_text(call *c, napi_value array, uint32_t at, uint64_t units) {
  room r;
  question q = {.model = c->model};
  uint32_t status = ask(&r, asked_change_text, &q, sizeof(uint16_t), units);
  if (status != TM_OK) fail_memory(c);
  napi_value string = c->ok ? tell_string(c, status, &r) : NULL;
  c->ok = c->ok && checked(c->env, napi_set_element(c->env, array, at, string));
  drop_room(&r);
}

static void put_change(call *c, napi_value array, uint32_t at, const tm_change *change) {
  put_number(c, array, at, change->start);
  put_number(c, array, at + 1, change->end);
  put_text(c, array, at + 2, change->units);
}

/* Each change is asked for, also after a fault, since only then the next call begins with the first one again. */
static uint32_t put_changes(call *c, uint64_t doc, napi_value array) {
  tm_change change;
  uint32_t status, at = 0;
  napi_handle_scope scope;
  while ((status = tm_next_change(c->model, doc, &change)) == TM_OK) {
    c->ok = c->ok && checked(c->env, napi_open_handle_scope(c->env, &scope));
    if (!c->ok) continue;
    put_change(c, array, at, &change);
    at += CHANGE_VALUES;
    c->ok = checked(c->env, napi_close_handle_scope(c->env, scope)) && c->ok;
  }
  return status;
}

/* changes(doc): an array of the start, the end and the text of each change, or a status */
napi_value method_changes(napi_env env, napi_callback_info info) {
  call c;
  napi_value array;
  if (!begin_call(&c, env, info)) return NULL;
  uint64_t doc = number_at(&c, 0);
  c.ok = c.ok && checked(env, napi_create_array(env, &array));
  uint32_t status = c.ok ? put_changes(&c, doc, array) : TM_NOTHING;
  if (!c.ok) return failed(&c);
  return status == TM_NOTHING ? array : tell(&c, status);
}
