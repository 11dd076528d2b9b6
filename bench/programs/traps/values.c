/* Tells in a text what its variables hold, as a debugger prints them, and then loads where no memory is: out of bounds memory access. */
typedef unsigned char byte;
typedef unsigned long long wide;
enum color { RED, GREEN = 7, BLUE = -1 };
struct pair { int a; char b[4]; };
union both { int number; signed char bytes[4]; };
struct bits { unsigned low : 3; int middle : 5; wide high : 40; };
struct node { const struct node *next; struct pair *pair; enum color color; union both both; };

/* It lies in one page, between two marks, so that it is found in a dump without debugging information. */
static char told[4096] __attribute__((aligned(4096)));
static unsigned length;

static void put(const char *text) { while (*text) told[length++] = *text++; }

static void natural(wide n) {
  char digits[20];
  unsigned count = 0;
  do digits[count++] = (char)('0' + n % 10); while (n /= 10);
  while (count) told[length++] = digits[--count];
}

static void number(long long n) {
  if (n < 0) put("-");
  natural(n < 0 ? -(wide)n : (wide)n);
}

static void character(int c) {
  number(c);
  if (c < 32 || c > 126) return;
  put(" '");
  told[length++] = (char)c;
  put("'");
}

static void address(const void *p) {
  put("0x");
  for (int shift = 28; shift >= 0; shift -= 4) told[length++] = "0123456789abcdef"[(unsigned)p >> shift & 15];
}

static void color(enum color c) { put(c == RED ? "RED" : c == GREEN ? "GREEN" : c == BLUE ? "BLUE" : "?"); }

static void pair(const struct pair *p) {
  put("{a = ");
  number(p->a);
  put(", b = {");
  for (int i = 0; i < 4; i++) {
    if (i) put(", ");
    character(p->b[i]);
  }
  put("}}");
}

static void both(const union both *b) {
  put("{number = ");
  number(b->number);
  put(", bytes = {");
  for (int i = 0; i < 4; i++) {
    if (i) put(", ");
    character(b->bytes[i]);
  }
  put("}}");
}

static void node(const struct node *n) {
  put("{next = ");
  address(n->next);
  put(", pair = ");
  address(n->pair);
  put(", color = ");
  color(n->color);
  put(", both = ");
  both(&n->both);
  put("}");
}

#define TELL(name, call) (put(name " = "), call, put("\n"))

static int last(int count, const struct node *list, char letter, byte small, wide huge) {
  short negative = (short)-count;
  _Bool is_set = count > 3, is_clear = count < 3;
  enum color shade = list->color;
  unsigned grid[2][3] = {{1, 2, 3}, {4, 5, 4000000000u}};
  struct pair held = {count * 1000, {0, letter, '\'', 127}};
  struct bits bits = {5, -3, 0x8000000001};
  const struct node *const second = list->next;
  long long lowest = -9223372036854775807LL - 1;
  put("<<");
  TELL("count", number(count));
  TELL("list", address(list));
  TELL("letter", character(letter));
  TELL("small", character(small));
  TELL("huge", natural(huge));
  TELL("negative", number(negative));
  TELL("is_set", put("true"));
  TELL("is_clear", put("false"));
  TELL("shade", color(shade));
  put("grid = {{1, 2, 3}, {4, 5, 4000000000}}\n");
  TELL("held", pair(&held));
  put("bits = {low = 5, middle = -3, high = 549755813889}\n");
  TELL("second", address(second));
  TELL("lowest", put("-9223372036854775808"));
  for (int turn = 2; turn < count; turn++) {
    int *nowhere = (int *)(0x40000000 + turn);
    TELL("turn", number(turn));
    TELL("nowhere", address(nowhere));
    TELL("*second", node(second));
    TELL("list->next->pair->b[1]", character(list->next->pair->b[1]));
    TELL("(*list).both.bytes[2]", character((*list).both.bytes[2]));
    TELL("grid[1][2]", natural(grid[1][2]));
    put("*nowhere = <outside memory>\n>>");
    count += *nowhere;
  }
  return negative + is_set + is_clear + (int)grid[count & 1][2] + held.a + (int)bits.low + (int)(lowest >> 40);
}

static struct pair pairs[2] = {{-2147483647 - 1, "xyz"}, {77, {-1, '~', 31, 32}}};

__attribute__((export_name("run"))) int run(int count, int other) {
  struct node second = {0, &pairs[1], BLUE, {0x41424344}}, first = {&second, &pairs[0], GREEN, {-2}};
  return last(count, &first, (char)(other + 'a'), (byte)(other + 200), (wide)-1 - (wide)other);
}
