/* Compresses a text of repeated words with back references (LZ77, a hash table of the last places), and sums what comes out. */
#define SIZE 200000u
static unsigned char text[SIZE], packed[2 * SIZE];
static unsigned last[4096];

static void fill(void) {
  static const char words[] = "module dump frame local operand trap memory table offset index ";
  unsigned seed = 1;
  for (unsigned i = 0; i < SIZE; i++) {
    seed = seed * 1664525u + 1013904223u;
    text[i] = (unsigned char)(seed >> 28 ? words[(i + (seed >> 30)) % (sizeof words - 1)] : seed >> 20);
  }
}

static unsigned match(unsigned a, unsigned b) {
  unsigned n = 0;
  while (n < 255 && b + n < SIZE && text[a + n] == text[b + n]) n++;
  return n;
}

__attribute__((export_name("run"))) unsigned run(void) {
  fill();
  unsigned out = 0;
  for (unsigned at = 0; at + 4 < SIZE;) {
    unsigned key = (text[at] * 33u + text[at + 1] * 65u + text[at + 2] * 129u) % 4096u;
    unsigned from = last[key];
    last[key] = at;
    unsigned n = from < at ? match(from, at) : 0;
    if (n >= 4) {
      packed[out++] = 255;
      packed[out++] = (unsigned char)n;
      packed[out++] = (unsigned char)((at - from) >> 8);
      packed[out++] = (unsigned char)(at - from);
      at += n;
    } else {
      packed[out++] = text[at++];
    }
  }
  unsigned sum = out;
  for (unsigned i = 0; i < out; i++) sum = sum * 31u + packed[i];
  return sum;
}
