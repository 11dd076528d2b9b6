/* A machine whose states are functions in a table; a wrong state ends it: an index past the table, an entry that is not set, a function of
 * another type, the least number divided by -1, or a trap of the compiler's. */
typedef int (*step)(int, int);
static int add(int a, int b) { return a + b; }
static int shift(int a, int b) { return a << (b & 31); }
static int divide(int a, int b) { return a / b; }
static int fail(int a, int b) {
  if (b > 0) __builtin_trap();
  return a;
}
static long long other(long long a) { return a * a; }
static const step steps[] = {add, shift, divide, fail};
static long long (*volatile odd)(long long) = other;
static unsigned char log[256];
static unsigned logged;

static int go(int state, int a, int b) {
  volatile step next;
  log[logged++ % 256] = (unsigned char)(state + 1);
  if (state < 4) next = steps[state];
  else if (state == 4) next = (step)1000;
  else if (state == 5) next = (step)0;
  else next = (step)odd;
  return next(a, b);
}

__attribute__((export_name("run"))) int run(int kind, int b) {
  int a = 12;
  for (int i = 0; i < 20; i++) a = go(i & 1, a, i);
  if (kind == 2) return go(2, (int)0x80000000, b - 1);
  return go(kind, a, b + 1);
}
