/* Times `keystate_offer` of two builds of the device's library on the same bytes, call by call in one process, so that a busy machine hits both. Run it by
 * measure/versus. */
#define _DEFAULT_SOURCE
#include <dlfcn.h>
#include <stdint.h>
#include <stdio.h>
#include <stdlib.h>
#include <string.h>
#include <time.h>

#include "records.h"

enum { ROUNDS = 601 };

typedef uint8_t offer_call(uint8_t *, size_t, size_t *, const uint8_t *, size_t, uint64_t *);

/* one key and one signature; or 16 keys with a weight each, 16 witnesses, 48 signatures and 48 receipts */
static int wide;
static enum likeness likeness;

static void put_threshold(void) {
  put(wide ? 1 : 0, 1);
  if (!wide) {
    put(1, 8);
    return;
  }
  put(1, 1);
  put(16, 1);
  for (int i = 0; i < 16; i++) {
    put(1, 8);
    put(likeness == COPIES ? 1 : 8, 8);
  }
}

static void put_keys(int first) {
  put_items('D', first, wide ? 16 : 1);
  put_threshold();
  put_items('E', first + 50, wide ? 16 : 1);
  put_threshold();
}

static void put_toad(void) { put(!wide ? 0 : likeness == COPIES ? 1 : 16, 4); }

static void sign(void) {
  put(0, 4);
  put_signatures(wide ? 48 : 1, wide ? 16 : 1, likeness);
  put_signatures(wide ? 48 : 0, 16, likeness);
  finish();
}

static void inception(void) {
  begin("IC", 0, 1);
  put_keys(10);
  put_items('B', 150, wide ? 16 : 0);
  put_toad();
  put(0, 1);
  sign();
}

static void rotation(void) {
  begin("RO", 1, 2);
  put_item('E', 1);
  put_keys(30);
  put_items('B', 200, wide ? 16 : 0);
  put_items('B', 150, wide ? 16 : 0);
  put_toad();
  sign();
}

static void interaction(void) {
  begin("IX", 1, 2);
  put_item('E', 1);
  sign();
}

static uint8_t state[KEYSTATE_STATE_BYTES], held[KEYSTATE_STATE_BYTES];
static size_t used, held_used;
static uint64_t details[4];

static offer_call *opened(const char *path) {
  void *library = dlopen(path, RTLD_NOW | RTLD_LOCAL);
  offer_call *call;
  if (!library) {
    fprintf(stderr, "%s\n", dlerror());
    exit(1);
  }
  *(void **)&call = dlsym(library, "keystate_offer");
  return call;
}

static double nanoseconds(offer_call *call, size_t from, int calls) {
  struct timespec began, ended;
  clock_gettime(CLOCK_MONOTONIC, &began);
  for (int i = 0; i < calls; i++) {
    memcpy(state, held, held_used);
    used = from;
    if (call(state, sizeof state, &used, input, length, details) != 0) exit(2);
  }
  clock_gettime(CLOCK_MONOTONIC, &ended);
  return ((double)(ended.tv_sec - began.tv_sec) * 1e9 + (double)(ended.tv_nsec - began.tv_nsec)) / calls;
}

static int below(const void *a, const void *b) { return *(const double *)a < *(const double *)b ? -1 : 1; }

static void measure(offer_call *calls[2], const char *what, void (*record)(void)) {
  static double times[2][ROUNDS];
  used = 0;
  inception();
  if (calls[0](state, sizeof state, &used, input, length, details) != 0) exit(2);
  memcpy(held, state, used);
  held_used = used;
  record();
  for (int round = 0; round < ROUNDS; round++)
    for (int k = 0; k < 2; k++) {
      int which = (round + k) % 2;
      times[which][round] = nanoseconds(calls[which], record == inception ? 0 : held_used, wide ? 40 : 400);
    }
  for (int k = 0; k < 2; k++) qsort(times[k], ROUNDS, sizeof times[k][0], below);
  double *a = times[0], *b = times[1];
  printf("| %s | %.0f (%.0f) | %.0f (%.0f) | %.2f (%.2f) |\n", what, a[ROUNDS / 2], a[0], b[ROUNDS / 2], b[0], b[ROUNDS / 2] / a[ROUNDS / 2], b[0] / a[0]);
}

int main(int argc, char **argv) {
  if (argc != 3) return 1;
  offer_call *calls[2] = {opened(argv[1]), opened(argv[2])};
  static const char *names[] = {"one key", "widest", "widest, alike", "widest, copies"};
  printf("keystate_offer, nanoseconds a call: the median of %d rounds (the least).\n\n| Shape | first | second | ratio |\n|---|---|---|---|\n", ROUNDS);
  for (int size = 0; size < 4; size++) {
    char what[40];
    wide = size > 0;
    likeness = size > 0 ? (enum likeness)(size - 1) : APART;
    snprintf(what, sizeof what, "%s, IC", names[size]);
    measure(calls, what, inception);
    snprintf(what, sizeof what, "%s, RO", names[size]);
    measure(calls, what, rotation);
    snprintf(what, sizeof what, "%s, IX", names[size]);
    measure(calls, what, interaction);
  }
  return 0;
}
