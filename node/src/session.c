/* A session: how it is made, opened and freed, and what the garbage collector is told of its memory. */
#include "addon.h"

#include <stdlib.h>

enum { SESSION_BYTES = 75000, LEAST_REPORTED = 1 << 16 };

/* ---- Memory. It is not the collector's own, so it would not hurry to collect small objects that hold much of it. */

static void report(napi_env env, session *s) {
  int64_t whole;
  if (checked(env, napi_adjust_external_memory(env, s->unreported, &whole))) s->reported += s->unreported;
  s->unreported = 0;
}

static void hold_bytes(napi_env env, session *s, int64_t bytes) {
  s->unreported += bytes;
  if (llabs(s->unreported) >= LEAST_REPORTED) report(env, s);
}

void hold(call *c, uint64_t doc, int64_t units) {
  int64_t bytes = units * (int64_t)sizeof(uint16_t);
  c->session->held[doc] += bytes;
  hold_bytes(c->env, c->session, bytes);
}

static void let_go(napi_env env, session *s) {
  tm_free(&s->model);
  s->unreported = -s->reported;
  report(env, s);
  for (size_t doc = 0; doc < DOCUMENTS; doc++) s->held[doc] = 0;
}

/* ---- Making and freeing */

static void finalize(napi_env env, void *data, void *hint) {
  session *s = data;
  (void)hint;
  let_go(env, s);
  free(s);
}

napi_value new_session(napi_env env, napi_callback_info info) {
  napi_value self, target;
  addon *shared;
  if (!checked(env, napi_get_new_target(env, info, &target)) || !checked(env, napi_get_cb_info(env, info, NULL, NULL, &self, NULL))
      || !checked(env, napi_get_instance_data(env, (void **)&shared)))
    return NULL;
  session *s = target ? calloc(1, sizeof *s) : NULL;
  if (!s) {
    napi_throw_error(env, NULL, target ? "there is no memory for a session" : "a session is made by new");
    return NULL;
  }
  s->addon = shared;
  if (!checked(env, napi_wrap(env, self, s, finalize, NULL, NULL))) {
    free(s);
    return NULL;
  }
  return self;
}

/* make() */
napi_value method_make(napi_env env, napi_callback_info info) {
  call c;
  if (!begin_call(&c, env, info)) return NULL;
  uint32_t status = tm_make(c.model);
  if (status == TM_OK) hold_bytes(env, c.session, SESSION_BYTES);
  return tell(&c, status);
}

/* close() */
napi_value method_close(napi_env env, napi_callback_info info) {
  call c;
  if (!begin_call(&c, env, info)) return NULL;
  let_go(env, c.session);
  return tell(&c, TM_OK);
}

/* ---- Opening */

static tm_pair *pairs_of(call *c, size_t at, size_t *count) {
  size_t numbers;
  const double *lengths = numbers_at(c, at, &numbers);
  *count = numbers / 2;
  tm_pair *pairs = malloc((*count + 1) * sizeof *pairs);
  if (!pairs) fail_memory(c);
  for (size_t it = 0; c->ok && it < *count; it++)
    pairs[it] = (tm_pair){.opening = number_of(lengths[2 * it]), .closing = number_of(lengths[2 * it + 1])};
  return pairs;
}

static uint32_t open_text(call *c, uint64_t doc, const tm_opening *opening) {
  uint64_t length;
  uint32_t status = tm_open(c->model, doc, opening);
  if (status == TM_OK && tm_len(c->model, doc, &length) == TM_OK)
    hold(c, doc, (int64_t)length - c->session->held[doc] / (int64_t)sizeof(uint16_t));
  return status;
}

/* open(doc, ending, text or bytes, lengths of brackets, brackets, marks, line, opening, closing) */
napi_value method_open(napi_env env, napi_callback_info info) {
  call c;
  text given, brackets, marks;
  tm_opening opening = {0};
  tm_hiding hiding = {0};
  if (!begin_call(&c, env, info)) return NULL;
  uint64_t doc = number_at(&c, 0), ending = number_at(&c, 1);
  take_text_or_bytes(&c, 2, &given);
  tm_pair *pairs = pairs_of(&c, 3, &opening.pair_count);
  take_text(&c, 4, &brackets);
  take_text(&c, 5, &marks);
  hiding = (tm_hiding){.texts = marks.units, .length = marks.length};
  hiding.line = number_at(&c, 6);
  hiding.opening = number_at(&c, 7);
  hiding.closing = number_at(&c, 8);
  opening.utf8 = given.utf8;
  opening.utf16 = given.units;
  opening.length = given.length;
  opening.ending = (uint32_t)ending;
  opening.pairs = pairs;
  opening.brackets = brackets.units;
  opening.brackets_length = brackets.length;
  opening.hiding = &hiding;
  napi_value result = c.ok ? tell(&c, open_text(&c, doc, &opening)) : failed(&c);
  drop_text(&marks);
  drop_text(&brackets);
  free(pairs);
  drop_text(&given);
  return result;
}
