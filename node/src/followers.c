/* Snapshots and mirrors. */
#include "addon.h"

/* ---- Snapshots */

static napi_value number_of_new(napi_env env, napi_callback_info info, uint32_t (*makes)(tm_session *, uint64_t, uint64_t *)) {
  call c;
  uint64_t n = 0;
  if (!begin_call(&c, env, info)) return NULL;
  uint64_t doc = number_at(&c, 0);
  return c.ok ? tell_numbers(&c, makes(c.model, doc, &n), 1, &n) : failed(&c);
}

/* snapshot(doc) -> out: id */
napi_value method_snapshot(napi_env env, napi_callback_info info) { return number_of_new(env, info, tm_snapshot); }

/* A snapshot reads as many units as fit, and never returns TM_SHORT. */
static uint32_t asked_snapshot(const question *q, void *out, size_t room, uint64_t *count) {
  return tm_read(q->model, q->doc, q->first, out, room < q->last ? room : q->last, count);
}

/* readSnapshot(doc, id, most): a string, which is empty at the end, or a status */
napi_value method_readSnapshot(napi_env env, napi_callback_info info) {
  call c;
  room r;
  if (!begin_call(&c, env, info)) return NULL;
  question q = {.model = c.model, .doc = number_at(&c, 0), .first = number_at(&c, 1), .last = number_at(&c, 2)};
  if (!c.ok) return failed(&c);
  uint32_t status = ask(&r, asked_snapshot, &q, sizeof(uint16_t), q.last);
  napi_value result = tell_string(&c, status, &r);
  drop_room(&r);
  return result;
}

/* closeSnapshot(doc, id) */
napi_value method_closeSnapshot(napi_env env, napi_callback_info info) {
  call c;
  if (!begin_call(&c, env, info)) return NULL;
  uint64_t doc = number_at(&c, 0), id = number_at(&c, 1);
  return c.ok ? tell(&c, tm_close(c.model, doc, id)) : failed(&c);
}

/* ---- Mirrors */

static napi_value tell_followed(call *c, uint32_t status, const tm_followed *it) {
  const uint64_t numbers[] = {it->version, it->units, it->lines};
  return tell_numbers(c, status, 3, numbers);
}

/* mirror(doc) -> out: version */
napi_value method_mirror(napi_env env, napi_callback_info info) { return number_of_new(env, info, tm_mirror); }

/* mirrorState(doc) -> out: version, units, lines */
napi_value method_mirrorState(napi_env env, napi_callback_info info) {
  call c;
  tm_followed it = {0};
  if (!begin_call(&c, env, info)) return NULL;
  uint64_t doc = number_at(&c, 0);
  return c.ok ? tell_followed(&c, tm_mirror_now(c.model, doc, &it), &it) : failed(&c);
}

/* send(doc) -> out: number, version before */
napi_value method_send(napi_env env, napi_callback_info info) {
  call c;
  uint64_t told[2] = {0, 0};
  if (!begin_call(&c, env, info)) return NULL;
  uint64_t doc = number_at(&c, 0);
  return c.ok ? tell_numbers(&c, tm_send(c.model, doc, &told[0], &told[1]), 2, told) : failed(&c);
}

/* deliver(doc, number) -> out: version, units, lines */
napi_value method_deliver(napi_env env, napi_callback_info info) {
  call c;
  tm_followed it = {0};
  if (!begin_call(&c, env, info)) return NULL;
  uint64_t doc = number_at(&c, 0), number = number_at(&c, 1);
  return c.ok ? tell_followed(&c, tm_deliver(c.model, doc, number, &it), &it) : failed(&c);
}

static uint32_t asked_mirrored(const question *q, void *out, size_t room, uint64_t *count) {
  return tm_mirrored(q->model, q->doc, q->first, out, room, count);
}

/* mirrored(doc, line): a string, or a status */
napi_value method_mirrored(napi_env env, napi_callback_info info) {
  call c;
  room r;
  if (!begin_call(&c, env, info)) return NULL;
  question q = {.model = c.model, .doc = number_at(&c, 0), .first = ordinal_at(&c, 1)};
  if (!c.ok) return failed(&c);
  uint32_t status = ask(&r, asked_mirrored, &q, sizeof(uint16_t), 0);
  napi_value result = tell_string(&c, status, &r);
  drop_room(&r);
  return result;
}
