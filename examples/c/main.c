/* A key state on a device: an inception, an interaction, a rotation, and what is refused. Build and run: examples/run */
#include <inttypes.h>
#include <stdio.h>
#include <string.h>

#include "keystate.h"

/* ---- Records as bytes. A device gets them over the air; this example makes its own. */
struct record {
  uint8_t bytes[KEYSTATE_RECORD_BYTES];
  size_t length;
};

static void put(struct record *r, uint64_t value, int width) {
  while (width-- > 0) r->bytes[r->length++] = (uint8_t)(value >> (8 * width));
}

/* An item is a code letter and 32 bytes: D is a key, B a witness, E a digest. */
static void put_item(struct record *r, char code, uint8_t which) {
  put(r, (uint8_t)code, 1);
  memset(r->bytes + r->length, which, 32);
  r->length += 32;
}

static void put_list(struct record *r, char code, uint8_t which) {
  put(r, 1, 1);
  put_item(r, code, which);
}

/* "1 of 1": tag 0 and a number. */
static void put_threshold(struct record *r) {
  put(r, 0, 1);
  put(r, 1, 8);
}

static void begin(struct record *r, const char *mark, uint64_t sn, uint8_t said) {
  r->length = 0;
  put(r, (uint8_t)mark[0], 1);
  put(r, (uint8_t)mark[1], 1);
  put(r, 0, 2);
  put_item(r, 'E', 1); /* the identifier */
  put(r, 0, 8);
  put(r, sn, 8);
  put_item(r, 'E', said);
}

/* One signature by key 0 that shows committed key 0; no receipts. The two verdicts are what the device found out itself. */
static void end(struct record *r, int verified, int digest_matches) {
  put(r, 0, 4); /* no anchors */
  put(r, 1, 1);
  put(r, 'A', 1);
  put(r, 0, 4);
  put(r, 1, 1);
  put(r, 0, 4);
  memset(r->bytes + r->length, 0x5a, 64);
  r->length += 64;
  put(r, (uint64_t)verified, 1);
  put(r, (uint64_t)digest_matches, 1);
  put(r, 0, 1);
  r->bytes[2] = (uint8_t)((r->length - 4) >> 8);
  r->bytes[3] = (uint8_t)(r->length - 4);
}

/* An inception behind its own keys and threshold: one committed key, no witnesses, no config. */
static void end_inception(struct record *r) {
  put_list(r, 'E', 20);
  put_threshold(r);
  put(r, 0, 1); /* no witnesses */
  put(r, 0, 4);
  put(r, 0, 1); /* no config */
  end(r, 1, 0);
}

static void inception(struct record *r) {
  begin(r, "IC", 0, 1);
  put_list(r, 'D', 10);
  put_threshold(r);
  end_inception(r);
}

/* A teacher's clause and a pupil's clause, of one key each: both keys have to sign, and only the teacher's does. */
static void group(struct record *r) {
  begin(r, "IC", 0, 1);
  put(r, 2, 1);
  put_item(r, 'D', 10);
  put_item(r, 'D', 11);
  put(r, 0x01020101, 4); /* with weights, two clauses, of one weight each */
  for (int i = 0; i < 4; i++) put(r, 1, 8); /* 1/1 and 1/1 */
  end_inception(r);
}

static void interaction(struct record *r, uint64_t sn, uint8_t said, uint8_t prior, int verified) {
  begin(r, "IX", sn, said);
  put_item(r, 'E', prior);
  end(r, verified, 0);
}

static void rotation(struct record *r, uint64_t sn, uint8_t said, uint8_t prior) {
  begin(r, "RO", sn, said);
  put_item(r, 'E', prior);
  put_list(r, 'D', 11);
  put_threshold(r);
  put_list(r, 'E', 21);
  put_threshold(r);
  put(r, 0, 2); /* no additions, no removals */
  put(r, 0, 4);
  end(r, 1, 1);
}

/* ---- The device */
static uint8_t state[KEYSTATE_STATE_BYTES];
static size_t used = 0; /* nothing held yet */
static struct record incoming;

static void offer(const char *what) {
  uint64_t details[4];
  uint8_t number = keystate_offer(state, sizeof state, &used, incoming.bytes, incoming.length, details);
  printf("%-32s %2u  a %" PRIu64 "  b %" PRIu64 "  used %zu\n", what, number, details[KEYSTATE_A_LOW], details[KEYSTATE_B_LOW], used);
}

static void ask(void) {
  uint64_t details[4];
  uint8_t number = keystate_ask(state, used, details);
  if (number == KEYSTATE_NOT_INCEPTION) puts("nothing is held");
  if (number == KEYSTATE_ACCEPTED) printf("held, number %" PRIu64 "\n", details[KEYSTATE_A_LOW]);
}

int main(void) {
  ask();
  interaction(&incoming, 1, 2, 1, 1);
  offer("interaction on nothing");
  group(&incoming);
  offer("group, no pupil has signed"); /* b: the second clause */
  inception(&incoming);
  offer("inception");
  interaction(&incoming, 1, 2, 1, 0);
  offer("interaction, signature bad");
  interaction(&incoming, 1, 2, 1, 1);
  offer("interaction");
  offer("the same again");
  rotation(&incoming, 2, 3, 2);
  offer("rotation");
  ask();

  /* A buffer that is too short is not touched. */
  uint8_t small[100];
  size_t small_used = 0;
  uint64_t details[4];
  inception(&incoming);
  uint8_t number = keystate_offer(small, sizeof small, &small_used, incoming.bytes, incoming.length, details);
  printf("%-32s %2u  a %" PRIu64 "  used %zu\n", "inception into 100 bytes", number, details[KEYSTATE_A_LOW], small_used);

  /* Several records in one run of bytes: step from one to the next. */
  static uint8_t stream[2 * KEYSTATE_RECORD_BYTES];
  size_t end = 0, at = 0;
  inception(&incoming);
  memcpy(stream, incoming.bytes, incoming.length);
  end = incoming.length;
  interaction(&incoming, 1, 2, 1, 1);
  memcpy(stream + end, incoming.bytes, incoming.length);
  end += incoming.length;
  used = 0;
  while (at < end) {
    size_t length = keystate_length(stream + at, end - at);
    number = keystate_fold(state, sizeof state, &used, stream + at, length, details);
    printf("folded %zu bytes: %u\n", length, number);
    at += length;
  }
  ask();

  /* One clause of 1/2 and 1/2: two keys can meet it, one cannot. */
  static const uint8_t halves[] = {1, 1, 2, 0, 0, 0, 0, 0, 0, 0, 1, 0, 0, 0, 0, 0, 0, 0, 2, 0, 0, 0, 0, 0, 0, 0, 1, 0, 0, 0, 0, 0, 0, 0, 2};
  uint8_t yes = 0;
  for (size_t keys = 1; keys <= 2; keys++) {
    number = keystate_attainable(halves, sizeof halves, keys, &yes);
    printf("two halves by %zu keys: %u, %s\n", keys, number, yes ? "yes" : "no");
  }
  return 0;
}
