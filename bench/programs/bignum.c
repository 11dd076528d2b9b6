/* Arithmetic of large numbers, as lists of 32-bit words from the lowest up: 600! by short factors and as a square of halves, divided again by
 * long division, and a power modulo a number of 512 bits. */
#define WORDS 256u
typedef unsigned word;
typedef unsigned long long wide;
struct number { word size, words[WORDS]; };

static void trim(struct number *n) { while (n->size > 0 && n->words[n->size - 1] == 0) n->size--; }

static void set(struct number *n, word value) {
  n->words[0] = value;
  n->size = value != 0;
}

static void copy(struct number *to, const struct number *from) {
  for (word i = 0; i < from->size; i++) to->words[i] = from->words[i];
  to->size = from->size;
}

static void scale(struct number *n, word by) {
  wide carry = 0;
  for (word i = 0; i < n->size; i++) {
    carry += (wide)n->words[i] * by;
    n->words[i] = (word)carry;
    carry >>= 32;
  }
  if (carry) n->words[n->size++] = (word)carry;
  trim(n);
}

static void multiply(struct number *out, const struct number *a, const struct number *b) {
  for (word i = 0; i < a->size + b->size; i++) out->words[i] = 0;
  for (word i = 0; i < a->size; i++) {
    wide carry = 0;
    for (word j = 0; j < b->size; j++) {
      carry += (wide)a->words[i] * b->words[j] + out->words[i + j];
      out->words[i + j] = (word)carry;
      carry >>= 32;
    }
    out->words[i + b->size] = (word)carry;
  }
  out->size = a->size + b->size;
  trim(out);
}

static word shift_left(struct number *n, word bits) {
  word carry = 0;
  for (word i = 0; i < n->size && bits; i++) {
    word next = n->words[i] >> (32 - bits);
    n->words[i] = n->words[i] << bits | carry;
    carry = next;
  }
  return carry;
}

static void shift_right(struct number *n, word bits) {
  for (word i = 0; i < n->size && bits; i++)
    n->words[i] = n->words[i] >> bits | (i + 1 < n->size ? n->words[i + 1] << (32 - bits) : 0);
  trim(n);
}

/* Whether what was taken away was too much. */
static int subtract_at(struct number *n, const struct number *by, word times, word at) {
  wide carry = 0;
  word borrow = 0;
  for (word i = 0; i <= by->size; i++) {
    carry += (wide)(i < by->size ? by->words[i] : 0) * times;
    word part = (word)carry, old = n->words[at + i];
    n->words[at + i] = old - part - borrow;
    borrow = (wide)part + borrow > old;
    carry >>= 32;
  }
  return borrow != 0;
}

static void add_at(struct number *n, const struct number *by, word at) {
  wide carry = 0;
  for (word i = 0; i <= by->size; i++) {
    carry += (wide)n->words[at + i] + (i < by->size ? by->words[i] : 0);
    n->words[at + i] = (word)carry;
    carry >>= 32;
  }
}

/* Long division of two words or more (Knuth, volume 2, 4.3.1, algorithm D): what is left stays in `n`. */
static void divide(struct number *out, struct number *n, struct number *by) {
  word bits = (word)__builtin_clz(by->words[by->size - 1]), places = n->size + 1 - by->size, top = by->size - 1;
  out->size = 0;
  if (n->size < by->size) return;
  shift_left(by, bits);
  n->words[n->size] = shift_left(n, bits);
  for (word at = places; at-- > 0;) {
    wide head = (wide)n->words[at + top + 1] << 32 | n->words[at + top];
    wide guess = head / by->words[top], rest = head % by->words[top];
    while (guess >> 32 || (rest >> 32 == 0 && guess * by->words[top - 1] > (rest << 32 | n->words[at + top - 1]))) {
      guess--;
      rest += by->words[top];
      if (rest >> 32) break;
    }
    if (subtract_at(n, by, (word)guess, at)) {
      guess--;
      add_at(n, by, at);
    }
    out->words[at] = (word)guess;
  }
  out->size = places;
  trim(out);
  n->size = by->size;
  shift_right(n, bits);
  shift_right(by, bits);
}

static struct number product, half, square, quotient, base, modulus, power;

static void power_modulo(word exponent) {
  for (word bit = 31; bit-- > 0;) {
    multiply(&square, &power, &power);
    divide(&quotient, &square, &modulus);
    copy(&power, &square);
    if (exponent >> bit & 1) {
      multiply(&square, &power, &base);
      divide(&quotient, &square, &modulus);
      copy(&power, &square);
    }
  }
}

static word digest(const struct number *n, word sum) {
  for (word i = 0; i < n->size; i++) sum = sum * 31u + n->words[i];
  return sum;
}

__attribute__((export_name("run"))) unsigned run(void) {
  word sum = 0;
  set(&product, 1);
  for (word i = 2; i <= 600; i++) {
    scale(&product, i);
    if (i == 300) copy(&half, &product);
  }
  multiply(&square, &half, &half);
  divide(&quotient, &product, &square);
  sum = digest(&quotient, digest(&product, sum));
  set(&modulus, 1);
  set(&base, 3);
  for (word i = 0; i < 16; i++) {
    modulus.words[i] = 0x9e3779b9u * (2 * i + 1);
    base.words[i] = 0x85ebca6bu * (2 * i + 3);
  }
  modulus.size = base.size = 16;
  base.words[15] >>= 1;
  copy(&power, &base);
  for (word round = 1; round <= 40; round++) power_modulo(0x7fffffffu / round);
  return digest(&power, sum);
}
