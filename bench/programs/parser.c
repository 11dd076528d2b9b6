/* Reads 64 KiB of nested lists of numbers and names by a table of the classes of characters and one of states, and sums what it finds. */
#define SIZE 65536u
enum { OPEN, CLOSE, COMMA, DIGIT, LETTER, BLANK, CLASSES };
enum { BEFORE, NUMBER, NAME, BEHIND, STATES };
static char text[SIZE];
static unsigned char class[256];
static unsigned opened[64];

/* The state behind a character of a class; STATES where none can stand. */
static const unsigned char next[STATES][CLASSES] = {
    [BEFORE] = {BEFORE, BEHIND, STATES, NUMBER, NAME, BEFORE},
    [NUMBER] = {STATES, BEHIND, BEFORE, NUMBER, STATES, BEHIND},
    [NAME] = {STATES, BEHIND, BEFORE, NAME, NAME, BEHIND},
    [BEHIND] = {STATES, BEHIND, BEFORE, STATES, STATES, BEHIND},
};

static void put(unsigned *at, const char *word) {
  while (*word && *at < SIZE) text[(*at)++] = *word++;
}

static void make(void) {
  unsigned at = 0, depth = 0, seed = 5;
  while (at < SIZE - 256) {
    seed = seed * 1664525u + 1013904223u;
    unsigned pick = seed >> 29;
    if (pick < 2 && depth < 60) {
      put(&at, "[");
      depth++;
      continue;
    }
    if (pick < 4) put(&at, "value1");
    else put(&at, pick & 1 ? "1729" : " 42 ");
    while (depth > 0 && (seed >> 20 & 3) == 0) {
      put(&at, "]");
      depth--;
      seed = seed * 1664525u + 1013904223u;
    }
    put(&at, ", ");
  }
  put(&at, "0");
  while (depth-- > 0) put(&at, "]");
  while (at < SIZE) text[at++] = ' ';
}

static unsigned parse(void) {
  unsigned state = BEFORE, depth = 0, number = 0, sum = 0;
  for (unsigned i = 0; i < SIZE; i++) {
    unsigned char byte = (unsigned char)text[i];
    unsigned kind = class[byte], behind = next[state][kind];
    if (behind == STATES) return i;
    if (behind == NUMBER) number = 10 * number + byte - '0';
    else if (behind == NAME) number = 31 * number + byte;
    else if (state == NUMBER || state == NAME) {
      sum += number * (depth + 1);
      number = 0;
    }
    if (kind == OPEN) opened[depth++ & 63] = i;
    if (kind == CLOSE && depth > 0) sum ^= i - opened[--depth & 63];
    state = behind;
  }
  return sum;
}

__attribute__((export_name("run"))) unsigned run(void) {
  for (unsigned i = 0; i < 256; i++) class[i] = BLANK;
  for (unsigned i = '0'; i <= '9'; i++) class[i] = DIGIT;
  for (unsigned i = 'a'; i <= 'z'; i++) class[i] = LETTER;
  class['['] = OPEN;
  class[']'] = CLOSE;
  class[','] = COMMA;
  make();
  unsigned sum = 0;
  for (unsigned i = 0; i < 4; i++) sum = 31 * sum + parse();
  return sum;
}
