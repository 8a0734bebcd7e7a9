/* Makes the calls of a script (script.rs) on standard input and compares number, details and every byte of the lent buffers. */
#include <inttypes.h>
#include <stdio.h>
#include <stdlib.h>
#include <string.h>

#include "keystate.h"
#ifdef FAULTY
#include "faulty.h"
#endif

/* Behind the buffer stand some bytes more, which no call may touch. */
enum { ROOM = KEYSTATE_STATE_BYTES, ALL = ROOM + 32, INPUT = 4 + 65535 + 64, NONE = 0xffff };

struct call {
  int kind;
  size_t capacity, used, patch_at, length, state_length;
  uint8_t patch_by, number;
  uint8_t input[INPUT], state[ROOM];
  uint64_t details[4], value;
};

/* What a call gives and leaves. */
struct outcome {
  uint8_t number;
  uint64_t details[4], value;
  size_t used;
  uint8_t buffer[ALL];
};

static struct call call;
static uint8_t life[ALL]; /* the device's buffer */
static size_t life_used;
static char life_name[200];
static unsigned long calls_by_kind[256], numbers[256], calls, steps;

/* ---- Reading the script */
static void take(uint8_t *to, size_t count) {
  if (fread(to, 1, count, stdin) == count) return;
  puts("the script is cut short");
  exit(2);
}

static uint64_t take_number(int width) {
  uint8_t bytes[8];
  uint64_t value = 0;
  take(bytes, (size_t)width);
  for (int i = 0; i < width; i++) value = value << 8 | bytes[i];
  return value;
}

static size_t take_bytes(uint8_t *to, size_t room, int width) {
  uint64_t length = take_number(width);
  if (length > room) {
    puts("the script has too long a field");
    exit(2);
  }
  take(to, (size_t)length);
  return (size_t)length;
}

static int take_call(void) {
  call.kind = getchar();
  if (call.kind == EOF) return 0;
  call.capacity = (size_t)take_number(2);
  call.used = (size_t)take_number(2);
  if (call.kind == 't' && call.capacity == NONE) call.capacity = SIZE_MAX;
  if (call.used == NONE) call.used = SIZE_MAX;
  call.patch_at = (size_t)take_number(2);
  call.patch_by = (uint8_t)take_number(1);
  call.length = take_bytes(call.input, sizeof call.input, 4);
  call.number = (uint8_t)take_number(1);
  for (int i = 0; i < 4; i++) call.details[i] = take_number(8);
  call.value = take_number(4);
  call.state_length = take_bytes(call.state, sizeof call.state, 2);
  return 1;
}

/* ---- Differences */
static void hex(const char *what, const uint8_t *bytes, size_t count) {
  printf("  %s (%zu bytes): ", what, count);
  for (size_t i = 0; i < count && i < 400; i++) printf("%02x", bytes[i]);
  puts("");
}

static void tell(const char *who, uint8_t number, const uint64_t *d, uint64_t value, size_t used) {
  printf("  %s: %u", who, number);
  for (int i = 0; i < 4; i++) printf(" %" PRIx64, d[i]);
  printf(", value %" PRIu64 ", used %zu\n", value, used);
}

static void differ(const char *what, const struct outcome *ours, size_t used) {
  printf("%s, after %lu steps, call %lu of kind %c: %s\n", life_name, steps, calls, call.kind, what);
  tell("Rust", call.number, call.details, call.value, used);
  tell("ours", ours->number, ours->details, ours->value, ours->used);
  printf("  capacity %zu, used before %zu, byte %zu turned by %u\n", call.capacity, call.used,
         call.patch_at, call.patch_by);
  hex("input", call.input, call.length);
  hex("the Rust's state", call.state, call.state_length);
  hex("our buffer", ours->buffer, ours->used < ROOM ? ours->used : ROOM);
  exit(1);
}

/* ---- Calls */
static void make(struct outcome *o, const uint8_t *input) {
  uint8_t yes = 0x77;
  memset(o->details, 0x77, sizeof o->details);
  switch (call.kind) {
    case 'O': case 'o': o->number = keystate_offer(o->buffer, call.capacity, &o->used, input, call.length, o->details); break;
    case 'F': case 'f': o->number = keystate_fold(o->buffer, call.capacity, &o->used, input, call.length, o->details); break;
    case 'a': o->number = keystate_ask(o->buffer, call.used, o->details); break;
    case 'l': o->value = keystate_length(input, call.length); break;
    case 't':
      o->number = keystate_attainable(input, call.length, call.capacity, &yes);
      o->value = yes;
      break;
    default: printf("the script has a call of kind %d\n", call.kind); exit(2);
  }
  if (call.kind == 'l' || call.kind == 't') memset(o->details, 0, sizeof o->details); /* they have none */
}

static void compare(const struct outcome *o, const uint8_t *before) {
  int writes = strchr("OoFf", call.kind) != NULL && call.number == 0, goes_on = strchr("OF", call.kind) != NULL;
  size_t used = writes ? call.state_length : call.used;
  if (o->number != call.number) differ("the number differs", o, used);
  if (memcmp(o->details, call.details, sizeof o->details) != 0) differ("the details differ", o, used);
  if (o->value != call.value) differ("the value differs", o, used);
  if (o->used != used) differ("the used length differs", o, used);
  if (writes || goes_on) {
    if (o->used != call.state_length) differ("the state's length differs", o, used);
    if (memcmp(o->buffer, call.state, used) != 0) differ("the state's bytes differ", o, used);
  }
  size_t kept = writes ? used : 0; /* a refusal touches nothing, and nothing touches what stands behind the state */
  if (memcmp(o->buffer + kept, before + kept, ALL - kept) != 0) differ("a byte of the buffer was touched", o, used);
}

static void one(void) {
  static struct outcome o;
  static uint8_t before[ALL], input[INPUT];
  memset(&o, 0, sizeof o);
  memcpy(o.buffer, life, ALL);
  if (call.patch_at != NONE) o.buffer[call.patch_at] ^= call.patch_by;
  memcpy(before, o.buffer, ALL);
  memcpy(input, call.input, call.length);
  o.used = call.used;
  int goes_on = strchr("OF", call.kind) != NULL;
  if (goes_on) o.used = life_used; /* as the last call left it */
  calls++;
  make(&o, input);
  compare(&o, before);
  if (memcmp(input, call.input, call.length) != 0) differ("the input was touched", &o, o.used);
  calls_by_kind[call.kind]++;
  if (strchr("OoFf", call.kind) != NULL) numbers[o.number]++;
  if (!goes_on) return;
  memcpy(life, o.buffer, ALL);
  life_used = o.used;
  steps++;
}

static void begin(void) {
  size_t length = call.length < sizeof life_name ? call.length : sizeof life_name - 1;
  if (strncmp(life_name, (const char *)call.input, length) != 0) steps = 0; /* a KS in the fold begins again */
  memcpy(life_name, call.input, length);
  life_name[length] = 0;
  for (size_t i = 0; i < ALL; i++) life[i] = (uint8_t)(i * 37 + 11);
  life_used = 0;
  calls_by_kind['N']++;
}

int main(void) {
  while (take_call()) call.kind == 'N' ? begin() : one();
  if (calls == 0) {
    puts("the script has no calls");
    return 2;
  }
  const unsigned long *k = calls_by_kind;
  for (int i = 0; i < 42; i++) printf("%2d: %-8lu%s", i, numbers[i], i % 8 == 7 ? "\n" : "");
  printf("\nno difference in %lu calls: %lu offers and %lu on copies, %lu folds and %lu on copies, %lu ask, %lu length, %lu attainable\n",
         calls, k['O'], k['o'], k['F'], k['f'], k['a'], k['l'], k['t']);
  return 0;
}
