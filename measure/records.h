/* What the C programs of this folder make records of. A record is written to `input`. */
#include <stddef.h>
#include <stdint.h>
#include <string.h>

#include "keystate.h"

/* How like each other signatures are: no two copies and their bytes as of real ones; no two copies, but all agree up to their last byte; all copies of the
 * first. */
enum likeness { APART, ALIKE, COPIES };

static uint8_t input[KEYSTATE_RECORD_BYTES];
static size_t length;

static inline uint8_t random_byte(void) {
  static uint64_t seed = 88172645463325252u;
  seed ^= seed << 13;
  seed ^= seed >> 7;
  seed ^= seed << 17;
  return (uint8_t)(seed >> 32);
}

static inline void put(uint64_t value, int width) {
  while (width-- > 0) input[length++] = (uint8_t)(value >> (8 * width));
}

static inline void put_item(char code, uint8_t which) {
  put((uint8_t)code, 1);
  memset(input + length, which, 32);
  length += 32;
}

static inline void put_items(char code, int first, int count) {
  put((uint64_t)count, 1);
  for (int i = 0; i < count; i++) put_item(code, (uint8_t)(first + i));
}

static inline void begin(const char *mark, uint64_t sn, uint8_t said) {
  length = 0;
  put((uint8_t)mark[0], 1);
  put((uint8_t)mark[1], 1);
  put(0, 2);
  put_item('E', 1);
  put(0, 8);
  put(sn, 8);
  put_item('E', said);
}

/* so many signatures, of these places in turn; copies are of the first */
static inline void put_signatures(int count, int places, enum likeness likeness) {
  put((uint64_t)count, 1);
  for (int i = 0; i < count; i++) {
    uint64_t place = likeness == COPIES ? 0 : (uint64_t)(i % places);
    put('A', 1);
    put(place, 4);
    put(1, 1);
    put(place, 4);
    for (int k = 0; k < 64; k++) put(likeness == APART ? random_byte() : likeness == ALIKE && k == 63 ? (uint64_t)i : 0, 1);
    put(1, 1);
    put(1, 1);
  }
}

/* the body's length */
static inline void finish(void) {
  input[2] = (uint8_t)((length - 4) >> 8);
  input[3] = (uint8_t)(length - 4);
}
