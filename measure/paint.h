/* How deep the stack of a call goes: it is painted before the call; what is no longer painted after it was used. */
#include <stddef.h>
#include <stdint.h>

enum { AREA = 200 * 1024, PAINT = 0xa5 };

static uintptr_t low;

static __attribute__((noinline)) void paint(void) {
  volatile uint8_t area[AREA];
  for (size_t i = 0; i < AREA; i++) area[i] = PAINT;
  low = (uintptr_t)area;
}

static __attribute__((noinline)) size_t depth(uint8_t (*call)(void), uint8_t *number) {
  volatile uint8_t here = 0;
  paint();
  *number = call();
  const volatile uint8_t *at = (const volatile uint8_t *)low;
  while (*at == PAINT) at++;
  return (size_t)(&here - at);
}
