/* Prints how deep the stack of one call goes, for each call and kind of record at the greatest size that a record can have.
 * Run it by measure/stack. */
#include <stdint.h>
#include <stdio.h>
#include <string.h>

#include "paint.h"
#include "records.h"

/* sixteen clauses of one weight, 1/1 */
static void put_threshold(void) {
  put(1, 1);
  put(16, 1);
  for (int i = 0; i < 16; i++) put(1, 1);
  for (int i = 0; i < 32; i++) put(1, 8);
}

/* 48 signatures and 48 receipts */
static void sign(void) {
  put(0, 4);
  put_signatures(48, 16, APART);
  put_signatures(48, 16, APART);
  finish();
}

static void put_keys(int first) {
  put_items('D', first, 16);
  put_threshold();
  put_items('E', first + 50, 16);
  put_threshold();
}

static void inception(void) {
  begin("IC", 0, 1);
  put_keys(10);
  put_items('B', 150, 16);
  put(16, 4);
  put(8, 1);
  for (int i = 0; i < 8; i++) put(3, 1);
  sign();
}

static void rotation(void) {
  begin("RO", 1, 2);
  put_item('E', 1);
  put_keys(30);
  put_items('B', 200, 16);
  put_items('B', 150, 16);
  put(16, 4);
  sign();
}

static void interaction(void) {
  begin("IX", 1, 2);
  put_item('E', 1);
  sign();
}

static void snapshot(void) {
  begin("KS", 0, 1);
  put(0, 1);
  put_keys(10);
  put_items('B', 150, 16);
  put(16, 4);
  put(8, 1);
  for (int i = 0; i < 8; i++) put(3, 1);
  put(1, 1);
  put(0, 16);
  put_item('E', 1);
  finish();
}

static uint8_t state[KEYSTATE_STATE_BYTES];
static size_t used;
static uint64_t details[4];
static size_t deepest = 0;
static int wrong = 0;

static uint8_t offer(void) { return keystate_offer(state, sizeof state, &used, input, length, details); }
static uint8_t fold(void) { return keystate_fold(state, sizeof state, &used, input, length, details); }
static uint8_t ask(void) { return keystate_ask(state, used, details); }

static void measure(const char *what, uint8_t expected, uint8_t (*call)(void)) {
  uint8_t number;
  size_t used_up = depth(call, &number);
  printf("%-44s answer %2u, stack %6zu\n", what, number, used_up);
  if (number != expected) {
    printf("  expected %u\n", expected);
    wrong = 1;
  }
  if (used_up > deepest) deepest = used_up;
}

int main(void) {
  snapshot();
  static uint8_t full[KEYSTATE_STATE_BYTES];
  memcpy(full, input, length);
  size_t full_used = length;
  inception();
  used = 0;
  measure("offer: widest inception", 0, offer);
  rotation();
  printf("(the rotation has a body of %zu bytes, the state %zu)\n", length - 4, full_used);
  measure("offer: widest rotation", 0, offer);
  memcpy(state, full, full_used);
  used = full_used;
  interaction();
  measure("offer: widest interaction", 0, offer);
  measure("offer: the same again", 35, offer);
  input[length - 1] = 2;
  measure("offer: a bad last byte", 3, offer);
  snapshot();
  measure("offer: a snapshot on a state", 5, offer);
  used = 0;
  measure("offer: a snapshot on nothing", 0, offer);
  inception();
  measure("fold: widest inception", 0, fold);
  rotation();
  measure("fold: widest rotation", 0, fold);
  measure("ask", 0, ask);
  used = 3;
  measure("ask: no state's bytes", 1, ask);
  size_t buffers = sizeof state + sizeof input + sizeof details + sizeof used;
  printf("deepest stack %zu\nbuffers: state %zu, record %zu, details and length %zu\nin all %zu bytes: %.1f KiB, of 32 that we hold it to\n", deepest, sizeof state, sizeof input,
         sizeof details + sizeof used, deepest + buffers, (double)(deepest + buffers) / 1024);
  return wrong || deepest + buffers > 32 * 1024 || deepest > KEYSTATE_STACK_BYTES;
}
