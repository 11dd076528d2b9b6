/* BLAKE2b (RFC 7693, section 3) of 64 KiB that repeat a counter, all twelve rounds written out, as libraries write them. */
#define SIZE 65536u
typedef unsigned long long word;
static unsigned char bytes[SIZE];
static word state[8];
static const word start[8] = {0x6a09e667f3bcc908, 0xbb67ae8584caa73b, 0x3c6ef372fe94f82b, 0xa54ff53a5f1d36f1,
                              0x510e527fade682d1, 0x9b05688c2b3e6c1f, 0x1f83d9abfb41bd6b, 0x5be0cd19137e2179};

static inline word turn(word x, unsigned n) { return x >> n | x << (64 - n); }

#define MIX(a, b, c, d, x, y)                \
  v[a] = v[a] + v[b] + m[x];                 \
  v[d] = turn(v[d] ^ v[a], 32);              \
  v[c] = v[c] + v[d];                        \
  v[b] = turn(v[b] ^ v[c], 24);              \
  v[a] = v[a] + v[b] + m[y];                 \
  v[d] = turn(v[d] ^ v[a], 16);              \
  v[c] = v[c] + v[d];                        \
  v[b] = turn(v[b] ^ v[c], 63);
#define ROUND(a, b, c, d, e, f, g, h, i, j, k, l, m, n, o, p) \
  MIX(0, 4, 8, 12, a, b)                                      \
  MIX(1, 5, 9, 13, c, d)                                      \
  MIX(2, 6, 10, 14, e, f)                                     \
  MIX(3, 7, 11, 15, g, h)                                     \
  MIX(0, 5, 10, 15, i, j)                                     \
  MIX(1, 6, 11, 12, k, l)                                     \
  MIX(2, 7, 8, 13, m, n)                                      \
  MIX(3, 4, 9, 14, o, p)

static void block(const unsigned char *p, word count, int last) {
  word v[16], m[16];
  for (int i = 0; i < 16; i++) {
    m[i] = 0;
    for (int j = 7; j >= 0; j--) m[i] = m[i] << 8 | p[8 * i + j];
  }
  for (int i = 0; i < 8; i++) {
    v[i] = state[i];
    v[i + 8] = start[i];
  }
  v[12] ^= count;
  if (last) v[14] = ~v[14];
  ROUND(0, 1, 2, 3, 4, 5, 6, 7, 8, 9, 10, 11, 12, 13, 14, 15)
  ROUND(14, 10, 4, 8, 9, 15, 13, 6, 1, 12, 0, 2, 11, 7, 5, 3)
  ROUND(11, 8, 12, 0, 5, 2, 15, 13, 10, 14, 3, 6, 7, 1, 9, 4)
  ROUND(7, 9, 3, 1, 13, 12, 11, 14, 2, 6, 5, 10, 4, 0, 15, 8)
  ROUND(9, 0, 5, 7, 2, 4, 10, 15, 14, 1, 11, 12, 6, 8, 3, 13)
  ROUND(2, 12, 6, 10, 0, 11, 8, 3, 4, 13, 7, 5, 15, 14, 1, 9)
  ROUND(12, 5, 1, 15, 14, 13, 4, 10, 0, 7, 6, 3, 9, 2, 8, 11)
  ROUND(13, 11, 7, 14, 12, 1, 3, 9, 5, 0, 15, 4, 8, 6, 2, 10)
  ROUND(6, 15, 14, 9, 11, 3, 0, 8, 12, 2, 13, 7, 1, 4, 10, 5)
  ROUND(10, 2, 8, 4, 7, 6, 1, 5, 15, 11, 9, 14, 3, 12, 13, 0)
  ROUND(0, 1, 2, 3, 4, 5, 6, 7, 8, 9, 10, 11, 12, 13, 14, 15)
  ROUND(14, 10, 4, 8, 9, 15, 13, 6, 1, 12, 0, 2, 11, 7, 5, 3)
  for (int i = 0; i < 8; i++) state[i] ^= v[i] ^ v[i + 8];
}

__attribute__((export_name("run"))) unsigned run(void) {
  for (int i = 0; i < 8; i++) state[i] = start[i];
  state[0] ^= 0x01010040;
  for (unsigned i = 0; i < SIZE; i++) bytes[i] = (unsigned char)i;
  for (unsigned i = 0; i < SIZE; i += 128) block(bytes + i, i + 128, i + 128 == SIZE);
  return (unsigned)state[0];
}
