// Tells in a text what its variables hold, as a debugger prints them, and then loads where no memory is: out of bounds memory access. What C++ has
// beside C: structures by value, static members, code points, integers of 16 bytes, and names in namespaces.
typedef unsigned long long wide;
typedef __int128 widest;
struct Pair { int a; unsigned b; };
struct Triple { long long first; int second; char third; };

struct Counter {
  static const int kMost = 951;
  static int made;
  int count;
  Pair pair;
};
int Counter::made = 12;

namespace shop {
int stock = -77;
namespace back { unsigned long long shelves = 1234567890123ull; }
}

/* It lies in one page, between two marks, so that it is found in a dump without debugging information. */
static char told[4096] __attribute__((aligned(4096)));
static unsigned length;

static void put(const char *text) { while (*text) told[length++] = *text++; }

static void natural(unsigned __int128 n) {
  union { unsigned __int128 whole; unsigned words[4]; } left = {n};
  char digits[40];
  unsigned count = 0;
  do {
    wide rest = 0;
    for (int i = 3; i >= 0; i--) {
      rest = rest << 32 | left.words[i];
      left.words[i] = (unsigned)(rest / 10);
      rest %= 10;
    }
    digits[count++] = (char)('0' + rest);
  } while (left.words[0] | left.words[1] | left.words[2] | left.words[3]);
  while (count) told[length++] = digits[--count];
}

static void number(widest n) {
  if (n < 0) put("-");
  natural(n < 0 ? -(unsigned __int128)n : (unsigned __int128)n);
}

static void point(unsigned c) {
  natural(c);
  put(" '");
  if (c >= 32 && c <= 126) {
    told[length++] = (char)c;
  } else {
    put("\\u{");
    int shift = 28;
    while (shift > 0 && c >> shift == 0) shift -= 4;
    for (; shift >= 0; shift -= 4) told[length++] = "0123456789abcdef"[c >> shift & 15];
    put("}");
  }
  put("'");
}

static void pair(const Pair &p) {
  put("{a = ");
  number(p.a);
  put(", b = ");
  natural(p.b);
  put("}");
}

static void counter(const Counter &c) {
  put("{kMost = 951, made = <optimised out>, count = ");
  number(c.count);
  put(", pair = ");
  pair(c.pair);
  put("}");
}

#define TELL(name, call) (put(name " = "), call, put("\n"))

static int last(Pair held, Triple triple, Counter counted, char32_t letter, char16_t half) {
  char32_t plain = U'Z';
  widest debt = -((widest)1 << 100);
  unsigned __int128 most = ~(unsigned __int128)0;
  int *nowhere = (int *)0x40000000;
  put("<<");
  TELL("held", pair(held));
  put("triple = {first = ");
  number(triple.first);
  put(", second = ");
  number(triple.second);
  put(", third = 120 'x'}\n");
  TELL("counted", counter(counted));
  TELL("letter", point(letter));
  TELL("half", point(half));
  TELL("plain", point(plain));
  TELL("debt", number(debt));
  TELL("most", natural(most));
  TELL("nowhere", put("0x40000000"));
  TELL("counted.pair.b", natural(counted.pair.b));
  TELL("counted.kMost", number(951));
  TELL("stock", number(shop::stock));
  TELL("shelves", natural(shop::back::shelves));
  put("*nowhere = <outside memory>\n>>");
  return *nowhere + held.a + (int)plain + (int)debt + (int)most + counted.count + triple.second;
}

extern "C" __attribute__((export_name("run"))) int run(int a, int b) {
  return last(Pair{a, (unsigned)b}, Triple{-5000000000ll, a * 3, 'x'}, Counter{a + b, Pair{b, 4000000000u}}, U'\u03bb', u'\u20ac') + Counter::made;
}
