/* Sorts 60,000 numbers by a heap, and sums each with its place. */
#define COUNT 60000u
static unsigned numbers[COUNT];

static void sift(unsigned at, unsigned end) {
  for (;;) {
    unsigned child = 2 * at + 1;
    if (child >= end) return;
    if (child + 1 < end && numbers[child] < numbers[child + 1]) child++;
    if (numbers[at] >= numbers[child]) return;
    unsigned old = numbers[at];
    numbers[at] = numbers[child];
    numbers[child] = old;
    at = child;
  }
}

__attribute__((export_name("run"))) unsigned run(void) {
  unsigned seed = 7, sum = 0;
  for (unsigned i = 0; i < COUNT; i++) numbers[i] = seed = seed * 1664525u + 1013904223u;
  for (unsigned i = COUNT / 2; i-- > 0;) sift(i, COUNT);
  for (unsigned end = COUNT - 1; end > 0; end--) {
    unsigned old = numbers[0];
    numbers[0] = numbers[end];
    numbers[end] = old;
    sift(0, end);
  }
  for (unsigned i = 0; i < COUNT; i++) sum += numbers[i] * (i + 1);
  return sum;
}
