/* The stack and the time of one call of lent_receipts' `receipted_by` on 48 receipts, and the answers that document 01 asks for. Run it by
 * measure/receipts. */
#define _POSIX_C_SOURCE 199309L
#include <stdint.h>
#include <stdio.h>
#include <string.h>
#include <time.h>

#include "paint.h"
#include "records.h"

/* as the kit lays the structs out */
struct siger {
  uint8_t code;
  uint32_t index;
  uint8_t dual;
  uint32_t ondex;
  uint8_t raw[64];
  uint8_t verified, matches;
};
struct answer {
  uint8_t number;
  uint64_t a_high, a_low, b_high, b_low;
};
void lent_receipted_by(struct answer *out, uint32_t toad, uint64_t witnesses, const struct siger *receipts, uint64_t count);

static struct siger list[48];
static uint32_t toad;
static struct answer got;

static uint8_t call(void) {
  lent_receipted_by(&got, toad, 16, list, 48);
  return got.number;
}

static double best(void) {
  double least = 1e18;
  for (int round = 0; round < 101; round++) {
    struct timespec from, to;
    clock_gettime(CLOCK_MONOTONIC, &from);
    for (int i = 0; i < 100; i++) call();
    clock_gettime(CLOCK_MONOTONIC, &to);
    double took = ((double)(to.tv_sec - from.tv_sec) * 1e9 + (double)(to.tv_nsec - from.tv_nsec)) / 100;
    if (took < least) least = took;
  }
  return least;
}

/* 48 receipts of 16 witnesses; of copies all name the first */
static void fill(enum likeness likeness) {
  memset(list, 0, sizeof list);
  for (int i = 0; i < 48; i++) {
    list[i].code = 'A';
    list[i].index = likeness == COPIES ? 0 : (uint32_t)i % 16;
    list[i].verified = 1;
    for (int k = 0; k < 64 && likeness == APART; k++) list[i].raw[k] = random_byte();
    if (likeness == ALIKE) list[i].raw[63] = (uint8_t)i;
  }
}

static int wrong = 0;

/* enough of them, and one too few: "32: valid, required" */
static void measure(const char *what, uint32_t valid) {
  uint8_t number;
  toad = valid;
  size_t deep = depth(call, &number);
  printf("%-28s stack %6zu, %8.0f ns\n", what, deep, best());
  if (number != 0) wrong = 1;
  toad = valid + 1;
  if (call() != 32 || got.a_low != valid || got.b_low != valid + 1) wrong = 1;
}

int main(void) {
  fill(APART);
  measure("48 receipts, all different", 16);
  fill(ALIKE);
  measure("48 receipts, alike", 16);
  fill(COPIES);
  measure("48 receipts, copies of one", 1);
  list[0].verified = 0;
  measure("the same, the first not good", 0);
  if (wrong) printf("receipts: a wrong answer\n");
  return wrong;
}
