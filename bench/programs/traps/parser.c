/* Parses a text of nested lists with a recursive descent that trusts its input; no bracket is closed, so it reads past the end of the
 * memory: out of bounds memory access. */
typedef unsigned long long wide;
static char text[4096];
static const char *at;
static wide sum;
static unsigned depth, deepest;

static wide number(void) {
  wide value = 0;
  while (*at >= '0' && *at <= '9') value = value * 10 + (wide)(*at++ - '0');
  return value;
}

static wide list(void) {
  wide total = 0;
  unsigned start = depth++;
  if (depth > deepest) deepest = depth;
  at++;
  while (*at != ')') {
    if (*at == '(') total = total * 33 + list();
    else if (*at >= '0' && *at <= '9') total += number();
    else at++;
    sum ^= total << (start & 31);
  }
  at++;
  depth = start;
  return total;
}

__attribute__((export_name("run"))) int run(int count, int closed) {
  char *out = text;
  for (int i = 0; i < count; i++) {
    *out++ = '(';
    *out++ = (char)('1' + i % 9);
    *out++ = ' ';
  }
  for (int i = 0; i < count && closed; i++) *out++ = ')';
  at = text;
  return (int)(list() + sum);
}
