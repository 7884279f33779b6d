/* Edits sessions on threads at once. Each is made on one thread, edited on another and freed on a third. Ends with 0 where
 * each ends as it does where one thread makes all calls. */
#include "textmodel.h"

#include <pthread.h>
#include <stdio.h>

enum { SESSIONS = 4, EDITS = 500 };

/* A session, the seed of its edits, and the sum of its texts at the end; 0 where a call failed. */
typedef struct work {
  tm_session session;
  uint64_t seed;
  uint64_t sum;
} work;

static uint64_t next(uint64_t *random) {
  *random = *random * 6364136223846793005u + 1442695040888963407u;
  return *random >> 33;
}

static uint64_t sum_of(tm_session *session, uint64_t doc, uint64_t sum) {
  uint16_t unit;
  uint64_t len, count;
  tm_len(session, doc, &len);
  for (uint64_t at = 0; at < len; at++) {
    if (tm_value(session, doc, at, at + 1, &unit, 1, &count) == TM_OK) sum = sum * 31 + unit;
  }
  return sum;
}

static uint32_t one_edit(tm_session *session, uint64_t *random) {
  static const uint16_t text[] = u"(a[b]\n)";
  uint64_t doc = next(random) % 2 * 63, len, start, level;
  uint32_t status = next(random) % 2 == 0 ? tm_stop(session, doc) : TM_OK;
  if (status == TM_OK) status = tm_len(session, doc, &len);
  if (status != TM_OK) return status;
  start = next(random) % (len + 1);
  status = tm_edit(session, doc, start, start + (len > 900 && start < len), text, next(random) % 8);
  if (status == TM_OK && next(random) % 4 == 0 && tm_can_undo(session, doc) == TM_OK) status = tm_undo(session, doc);
  return status == TM_OK ? tm_level(session, doc, 1, 1, TM_UTF16, &level) : status;
}

/* ---- What each thread does */

static void *make(void *place) {
  tm_make(&((work *)place)->session);
  return NULL;
}

static void *edit(void *place) {
  work *own = place;
  uint64_t random = own->seed;
  uint32_t status = TM_OK;
  for (int count = 0; count < EDITS && status == TM_OK; count++) status = one_edit(&own->session, &random);
  own->sum = status == TM_OK ? sum_of(&own->session, 63, sum_of(&own->session, 0, 1)) : 0;
  return NULL;
}

static void *end(void *place) {
  tm_free(&((work *)place)->session);
  return NULL;
}

/* One step on all sessions, each on a thread of its own. */
static int together(void *(*step)(void *), work *all) {
  pthread_t threads[SESSIONS];
  int made = 0;
  while (made < SESSIONS && pthread_create(&threads[made], NULL, step, &all[made]) == 0) made++;
  for (int at = 0; at < made; at++) pthread_join(threads[at], NULL);
  return made == SESSIONS;
}

int main(void) {
  work alone[SESSIONS] = {0}, shared[SESSIONS] = {0};
  int failed = 0;
  for (int at = 0; at < SESSIONS; at++) {
    alone[at].seed = shared[at].seed = (uint64_t)at + 1;
    make(&alone[at]);
    edit(&alone[at]);
    end(&alone[at]);
  }
  if (!together(make, shared) || !together(edit, shared) || !together(end, shared)) return 1;
  for (int at = 0; at < SESSIONS; at++) {
    if (alone[at].sum == 0 || alone[at].sum != shared[at].sum || shared[at].session.at != NULL) {
      printf("session %d differs from the one of a single thread\n", at);
      failed = 1;
    }
  }
  return failed;
}
