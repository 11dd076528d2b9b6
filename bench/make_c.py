"""Writes a C program of many functions over integers, for modules of a wanted size.

usage: make_c.py FUNCTIONS FILE
"""

import random
import sys


def function(number, source):
    """A function with a loop, a table of cases, loads, stores and calls of earlier functions."""
    pick = source.randrange
    cases = "".join(
        f"    case {case}: a = (a {source.choice('+-*^|&')} {pick(1, 1 << 30)}u) >> {pick(1, 31)}; "
        f"b {source.choice('+-*^')}= a; break;\n"
        for case in range(pick(3, 12))
    )
    call = f"f{pick(number)}(b, a)" if number else "b"
    return f"""
unsigned f{number}(unsigned a, unsigned b) {{
  unsigned long long wide = {pick(1 << 40)}ull;
  for (unsigned i = 0; i < a % {pick(2, 40)}; i++) {{
    switch ((b + i) % {pick(3, 14)}) {{
{cases}    default: b += cells[(a + i) % SIZE]; break;
    }}
    wide = wide * {pick(3, 99)} + b;
    cells[(b ^ i) % SIZE] = (unsigned)(wide >> {pick(1, 32)});
    bytes[i % SIZE] = (unsigned char)a;
  }}
  return a % 7 == {pick(7)} ? {call} : (unsigned)wide + bytes[b % SIZE];
}}
"""


def main():
    count, path = int(sys.argv[1]), sys.argv[2]
    source = random.Random(count)
    with open(path, "w", encoding="ascii") as out:
        out.write("#define SIZE 4096u\nstatic unsigned cells[SIZE];\nstatic unsigned char bytes[SIZE];\n")
        for number in range(count):
            out.write(function(number, source))


main()
