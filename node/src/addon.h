/* Declarations shared by the sources of the addon.
 *
 * The addon is thin. A call takes numbers and strings, and returns a status, or for a text or a list a string or numbers. It
 * writes other results into `out`, an array of numbers that JavaScript reads. lib/ makes objects and errors of these. */
#ifndef ADDON_H
#define ADDON_H

#include <node_api.h>
#include <textmodel.h>

enum { DOCUMENTS = 64, MOST_ARGUMENTS = 10, OUT_NUMBERS = 6, FEW_UNITS = 1024, FEW_NUMBERS = 512 };

/* What one environment has: the main thread, and each worker, loads an addon of its own. */
typedef struct addon {
  double *out;
  napi_ref out_reference;
} addon;

/* The session of an object. `held` has the bytes given to each document. `reported` of them are reported to the garbage
 * collector, and `unreported` will be. */
typedef struct session {
  tm_session model;
  addon *addon;
  int64_t held[DOCUMENTS];
  int64_t reported;
  int64_t unreported;
} session;

/* A call from JavaScript. `ok` is false once something failed: an exception is pending, or memory was short. What `failed` answers
 * is to be returned then. */
typedef struct call {
  napi_env env;
  napi_value given[MOST_ARGUMENTS];
  session *session;
  tm_session *model;
  bool ok;
  bool lacks_memory;
} call;

/* A text that was given: units, or bytes of UTF-8 where `utf8` is not null. `many` is to be freed by drop_text. */
typedef struct text {
  const uint16_t *units;
  const char *utf8;
  size_t length;
  uint16_t *many;
  uint16_t few[FEW_UNITS];
} text;

/* What a call of the library hands out: `count` elements, in `few` or in `many`, which drop_room frees. */
typedef struct room {
  void *at;
  void *many;
  uint64_t count;
  uint64_t few[FEW_NUMBERS];
} room;

/* A question about a document whose result needs a buffer. */
typedef struct question {
  tm_session *model;
  uint64_t doc;
  uint64_t first;
  uint64_t last;
  uint64_t owner;
  uint32_t encoding;
  bool any;
  const tm_search *search;
} question;

typedef uint32_t asks(const question *q, void *out, size_t room, uint64_t *count);

/* ---- values.c */

/* Whether a call of Node-API was well. Where it was not, an exception is pending. */
bool checked(napi_env env, napi_status status);

bool begin_call(call *c, napi_env env, napi_callback_info info);
void fail_type(call *c, const char *message);
void fail_memory(call *c);

/* The argument at this place as a number of the library. One that is negative, no integer or not safe becomes UINT64_MAX,
 * which is no offset, line, document or id. */
uint64_t number_at(call *c, size_t at);
bool flag_at(call *c, size_t at);

/* A line or a column, which JavaScript counts from 0 and the library from 1. */
uint64_t ordinal_at(call *c, size_t at);
uint64_t number_of(double n);

/* The numbers of a Float64Array. */
const double *numbers_at(call *c, size_t at, size_t *count);

void take_text(call *c, size_t at, text *t);
void take_text_or_bytes(call *c, size_t at, text *t);
void drop_text(text *t);

/* Makes the call with a buffer for `expected` elements of `size` bytes, or with a longer one if that is too short. */
uint32_t ask(room *r, asks *asked, const question *q, size_t size, uint64_t expected);
void drop_room(room *r);

/* Results for JavaScript. For a status other than TM_OK the fault is in `out`. */
napi_value tell(call *c, uint32_t status);
napi_value failed(call *c);
napi_value tell_numbers(call *c, uint32_t status, size_t count, const uint64_t *numbers);
napi_value tell_string(call *c, uint32_t status, const room *r);

/* Makes a Float64Array, and returns the address of its numbers, or null if it could not be made. */
double *new_numbers(call *c, size_t count, napi_value *array);

/* ---- session.c */

napi_value new_session(napi_env env, napi_callback_info info);

/* Notes that a document was given `units` more units. */
void hold(call *c, uint64_t doc, int64_t units);

/* ---- The methods of a session, by file. The first argument is the number of a document, except in those of a session. */

#define METHODS_OF_SESSION(M) M(make) M(close) M(open)
#define METHODS_OF_EDITS(M) \
  M(edit) M(editAt) M(joint) M(undo) M(redo) M(canUndo) M(canRedo) M(stop) M(setEnding) M(replaceAll) M(changes)
#define METHODS_OF_TEXT(M) \
  M(length) M(lineCount) M(versions) M(ending) M(value) M(line) M(position) M(offset) M(nearPosition) M(nearOffset) M(stops) M(find)
#define METHODS_OF_MARKS(M) M(decorate) M(decoration) M(decorations) M(brackets) M(match) M(level)
#define METHODS_OF_FOLLOWERS(M) \
  M(snapshot) M(readSnapshot) M(closeSnapshot) M(mirror) M(mirrorState) M(send) M(deliver) M(mirrored)
#define METHODS(M) METHODS_OF_SESSION(M) METHODS_OF_EDITS(M) METHODS_OF_TEXT(M) METHODS_OF_MARKS(M) METHODS_OF_FOLLOWERS(M)

#define DECLARE(name) napi_value method_##name(napi_env env, napi_callback_info info);
METHODS(DECLARE)
#undef DECLARE

#endif
