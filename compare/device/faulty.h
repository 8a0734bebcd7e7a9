/* The archive's calls with one fault each, chosen by the variable FAULT: replay.c, built over these, has to notice every one. */
static int fault(int which) {
  const char *chosen = getenv("FAULT");
  return chosen != NULL && atoi(chosen) == which;
}

/* What goes wrong behind a call that changes a state; `before` is what `used` was. */
static uint8_t go_wrong(uint8_t n, uint8_t *state, size_t capacity, size_t *used, size_t before, uint64_t d[4]) {
  if (fault(1) && n == 27) n = 28;
  if (fault(2) && n == 35) d[KEYSTATE_B_LOW] ^= 1;
  if (fault(3) && n == 35) d[KEYSTATE_A_HIGH] ^= 1;
  if (fault(4) && n == 0 && *used < capacity) state[*used] ^= 1;
  if (fault(5) && n == 0) state[capacity] ^= 1;
  if (fault(6) && n == 0) state[*used - 1] ^= 1;
  if (fault(7) && n == 0) *used += 1;
  if (fault(8) && n != 0 && capacity > 0) state[capacity - 1] ^= 1;
  if (fault(9) && n == 36) state[0] ^= 1;
  if (fault(10) && n == 36) *used = 0;
  if (fault(11) && n == 41) state[before] ^= 1;
  if (fault(12) && n == 41) d[KEYSTATE_A_LOW] -= 1;
  if (fault(13) && n == 1 && before > capacity) n = 3;
  if (fault(20) && n == 27) d[KEYSTATE_B_LOW] = 0;
  if (fault(21) && n == 28) d[KEYSTATE_B_LOW] -= d[KEYSTATE_B_LOW] > 0;
  return n;
}

static uint8_t faulty_offer(uint8_t *state, size_t capacity, size_t *used, const uint8_t *input, size_t length, uint64_t d[4]) {
  size_t before = *used;
  uint64_t other[4];
  if (fault(14)) return keystate_fold(state, capacity, used, input, length, d);
  uint8_t n = keystate_offer(state, capacity, used, input, length, fault(15) ? other : d);
  return go_wrong(n, state, capacity, used, before, d);
}

static uint8_t faulty_fold(uint8_t *state, size_t capacity, size_t *used, const uint8_t *input, size_t length, uint64_t d[4]) {
  size_t before = *used;
  if (fault(16)) return keystate_offer(state, capacity, used, input, length, d);
  return go_wrong(keystate_fold(state, capacity, used, input, length, d), state, capacity, used, before, d);
}

static uint8_t faulty_ask(const uint8_t *state, size_t used, uint64_t d[4]) {
  return keystate_ask(state, fault(17) && used > 0 ? used - 1 : used, d);
}

static size_t faulty_length(const uint8_t *input, size_t length) {
  return fault(18) ? length : keystate_length(input, length);
}

static uint8_t faulty_attainable(const uint8_t *threshold, size_t length, size_t keys, uint8_t *yes) {
  return keystate_attainable(threshold, length, fault(19) && keys < 16 ? keys + 1 : keys, yes);
}

#define keystate_offer faulty_offer
#define keystate_fold faulty_fold
#define keystate_ask faulty_ask
#define keystate_length faulty_length
#define keystate_attainable faulty_attainable
