/* The addon: what it exports to lib/. */
#include "addon.h"

#include <stdlib.h>

#define MEMBER(name) {#name, NULL, method_##name, NULL, NULL, NULL, napi_default_method, NULL},
static const napi_property_descriptor members[] = {METHODS(MEMBER)};
#undef MEMBER

enum { MEMBERS = sizeof members / sizeof *members };

typedef struct language {
  const char *name;
  const tm_hiding *hiding;
} language;

static const language languages[] = {
  {"c", &tm_hiding_c},           {"python", &tm_hiding_python}, {"rust", &tm_hiding_rust},
  {"javascript", &tm_hiding_javascript}, {"shell", &tm_hiding_shell},
};

enum { LANGUAGES = sizeof languages / sizeof *languages };

static void free_addon(napi_env env, void *data, void *hint) {
  addon *shared = data;
  (void)hint;
  napi_delete_reference(env, shared->out_reference);
  free(shared);
}

/* The array that is read after a call. It is kept for as long as the addon is. */
static bool export_out(napi_env env, napi_value exports, addon *shared) {
  napi_value buffer, array;
  return checked(env, napi_create_arraybuffer(env, OUT_NUMBERS * sizeof(double), (void **)&shared->out, &buffer))
    && checked(env, napi_create_typedarray(env, napi_float64_array, OUT_NUMBERS, buffer, 0, &array))
    && checked(env, napi_create_reference(env, array, 1, &shared->out_reference))
    && checked(env, napi_set_named_property(env, exports, "out", array));
}

static bool export_class(napi_env env, napi_value exports) {
  napi_value class;
  return checked(env, napi_define_class(env, "Session", NAPI_AUTO_LENGTH, new_session, NULL, MEMBERS, members, &class))
    && checked(env, napi_set_named_property(env, exports, "Session", class));
}

static bool set_number(napi_env env, napi_value object, const char *name, uint64_t n) {
  napi_value value;
  return checked(env, napi_create_double(env, (double)n, &value)) && checked(env, napi_set_named_property(env, object, name, value));
}

static bool set_language(napi_env env, napi_value object, const language *l) {
  napi_value marks, texts;
  return checked(env, napi_create_object(env, &marks))
    && checked(env, napi_create_string_utf16(env, l->hiding->texts, l->hiding->length, &texts))
    && checked(env, napi_set_named_property(env, marks, "texts", texts)) && set_number(env, marks, "line", l->hiding->line)
    && set_number(env, marks, "opening", l->hiding->opening) && set_number(env, marks, "closing", l->hiding->closing)
    && checked(env, napi_set_named_property(env, object, l->name, marks));
}

static bool export_languages(napi_env env, napi_value exports) {
  napi_value object;
  if (!checked(env, napi_create_object(env, &object))) return false;
  for (size_t at = 0; at < LANGUAGES; at++)
    if (!set_language(env, object, &languages[at])) return false;
  return checked(env, napi_set_named_property(env, exports, "languages", object));
}

static bool export_messages(napi_env env, napi_value exports) {
  napi_value array, message;
  if (!checked(env, napi_create_array(env, &array))) return false;
  for (uint32_t status = TM_OK; status <= TM_GAP; status++)
    if (!checked(env, napi_create_string_utf8(env, tm_message(status), NAPI_AUTO_LENGTH, &message))
        || !checked(env, napi_set_element(env, array, status, message)))
      return false;
  return checked(env, napi_set_named_property(env, exports, "messages", array));
}

NAPI_MODULE_INIT() {
  addon *shared = calloc(1, sizeof *shared);
  if (!shared || !checked(env, napi_set_instance_data(env, shared, free_addon, NULL))) {
    free(shared);
    return NULL;
  }
  return export_out(env, exports, shared) && export_class(env, exports) && export_languages(env, exports)
      && export_messages(env, exports) && set_number(env, exports, "version", tm_version())
    ? exports
    : NULL;
}
