/* What crosses between JavaScript and the library: numbers, texts, lists and statuses. */
#include "addon.h"

#include <stdlib.h>

static const double MOST_SAFE = 9007199254740991.0;

bool checked(napi_env env, napi_status status) {
  const napi_extended_error_info *info = NULL;
  bool pending = false;
  if (status == napi_ok) return true;
  napi_get_last_error_info(env, &info);
  if (napi_is_exception_pending(env, &pending) == napi_ok && !pending)
    napi_throw_error(env, NULL, info && info->error_message ? info->error_message : "a call of Node-API failed");
  return false;
}

bool begin_call(call *c, napi_env env, napi_callback_info info) {
  size_t count = MOST_ARGUMENTS;
  napi_value self;
  c->env = env;
  c->lacks_memory = false;
  c->ok = checked(env, napi_get_cb_info(env, info, &count, c->given, &self, NULL))
    && checked(env, napi_unwrap(env, self, (void **)&c->session));
  if (c->ok) c->model = &c->session->model;
  return c->ok;
}

void fail_type(call *c, const char *message) {
  if (c->ok) napi_throw_type_error(c->env, NULL, message);
  c->ok = false;
}

void fail_memory(call *c) {
  c->lacks_memory = c->ok;
  c->ok = false;
}

/* ---- Numbers */

uint64_t number_of(double n) {
  return n >= 0 && n <= MOST_SAFE && n == (double)(uint64_t)n ? (uint64_t)n : UINT64_MAX;
}

uint64_t number_at(call *c, size_t at) {
  double n = 0;
  if (c->ok && napi_get_value_double(c->env, c->given[at], &n) != napi_ok) fail_type(c, "a number is expected");
  return number_of(n);
}

uint64_t ordinal_at(call *c, size_t at) {
  uint64_t n = number_at(c, at);
  return n == UINT64_MAX ? n : n + 1;
}

bool flag_at(call *c, size_t at) {
  bool flag = false;
  if (c->ok && napi_get_value_bool(c->env, c->given[at], &flag) != napi_ok) fail_type(c, "a boolean is expected");
  return flag;
}

const double *numbers_at(call *c, size_t at, size_t *count) {
  napi_typedarray_type type = napi_int8_array;
  void *data = NULL;
  *count = 0;
  if (!c->ok) return NULL;
  if (napi_get_typedarray_info(c->env, c->given[at], &type, count, &data, NULL, NULL) != napi_ok || type != napi_float64_array) {
    *count = 0;
    fail_type(c, "a Float64Array is expected");
    return NULL;
  }
  return data;
}

double *new_numbers(call *c, size_t count, napi_value *array) {
  napi_value buffer;
  void *data = NULL;
  c->ok = c->ok && checked(c->env, napi_create_arraybuffer(c->env, count * sizeof(double), &data, &buffer))
    && checked(c->env, napi_create_typedarray(c->env, napi_float64_array, count, buffer, 0, array));
  return c->ok ? data : NULL;
}

/* ---- Texts */

static void take_many(call *c, napi_value value, text *t) {
  c->ok = checked(c->env, napi_get_value_string_utf16(c->env, value, NULL, 0, &t->length));
  if (!c->ok) return;
  t->units = t->many = malloc((t->length + 1) * sizeof *t->many);
  if (!t->many) {
    fail_memory(c);
    return;
  }
  c->ok = checked(c->env, napi_get_value_string_utf16(c->env, value, t->many, t->length + 1, &t->length));
}

static void no_text(text *t) {
  t->units = t->few;
  t->many = NULL;
  t->utf8 = NULL;
  t->length = 0;
}

/* If a string fills the buffer up to the final zero, it may be longer. */
void take_text(call *c, size_t at, text *t) {
  no_text(t);
  if (!c->ok) return;
  if (napi_get_value_string_utf16(c->env, c->given[at], t->few, FEW_UNITS, &t->length) != napi_ok) {
    fail_type(c, "a string is expected");
  } else if (t->length == FEW_UNITS - 1) {
    take_many(c, c->given[at], t);
  }
}

void take_text_or_bytes(call *c, size_t at, text *t) {
  napi_typedarray_type type;
  bool is_array = false;
  void *data = NULL;
  no_text(t);
  if (!c->ok || napi_is_typedarray(c->env, c->given[at], &is_array) != napi_ok || !is_array) {
    take_text(c, at, t);
    return;
  }
  c->ok = checked(c->env, napi_get_typedarray_info(c->env, c->given[at], &type, &t->length, &data, NULL, NULL));
  if (c->ok && type != napi_uint8_array) fail_type(c, "a string or bytes are expected");
  t->utf8 = data ? data : "";
}

void drop_text(text *t) { free(t->many); }

/* ---- What needs room */

uint32_t ask(room *r, asks *asked, const question *q, size_t size, uint64_t expected) {
  uint64_t fits = sizeof r->few / size;
  uint32_t status = TM_SHORT;
  r->at = r->few;
  r->many = NULL;
  r->count = expected;
  if (expected <= fits) status = asked(q, r->few, fits, &r->count);
  if (status != TM_SHORT) return status;
  if (r->count > SIZE_MAX / size) return TM_MEMORY;
  r->at = r->many = malloc(r->count * size);
  return r->many ? asked(q, r->many, r->count, &r->count) : TM_MEMORY;
}

void drop_room(room *r) { free(r->many); }

/* ---- Answers */

/* Unsafe integers are rounded, and TM_NO_INDEX becomes -1. */
static double told(uint64_t n) { return n == TM_NO_INDEX ? -1 : (double)n; }

static napi_value status_value(call *c, uint32_t status) {
  napi_value value = NULL;
  return checked(c->env, napi_create_uint32(c->env, status, &value)) ? value : NULL;
}

napi_value failed(call *c) { return c->lacks_memory ? status_value(c, TM_MEMORY) : NULL; }

static void tell_fault(call *c) {
  const tm_fault *fault = &c->model->fault;
  double *out = c->session->addon->out;
  out[0] = told(fault->index);
  out[1] = told(fault->doc);
  out[2] = told(fault->have);
  out[3] = told(fault->need);
}

napi_value tell(call *c, uint32_t status) {
  if (status != TM_OK) tell_fault(c);
  return status_value(c, status);
}

napi_value tell_numbers(call *c, uint32_t status, size_t count, const uint64_t *numbers) {
  if (status != TM_OK) return tell(c, status);
  for (size_t at = 0; at < count; at++) c->session->addon->out[at] = told(numbers[at]);
  return status_value(c, status);
}

napi_value tell_string(call *c, uint32_t status, const room *r) {
  napi_value string = NULL;
  if (status != TM_OK) return tell(c, status);
  c->ok = checked(c->env, napi_create_string_utf16(c->env, r->at, r->count, &string));
  return c->ok ? string : NULL;
}
