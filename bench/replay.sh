#!/bin/sh
# `pm replay` on a recorded run of 10^8 steps, which writes all over five pages: its first pass, which keeps checkpoints, beside `pm run`, and
# then 100 moves to random steps. One of them has to take at most an eighth of the run, on the average. Prints the seconds of each, with the
# peak of memory, in rounds of three. Needs the program, clang with lld, and python3.
set -eu
top=$(cd "$(dirname "$0")/.." && pwd)
pm=${PM:-$("$top/tools/program")}
work=$(mktemp -d)
trap 'rm -rf "$work"' EXIT
cd "$work"
cat > program.c <<'PROGRAM'
__attribute__((import_module("env"), import_name("read"))) unsigned read(void);
static unsigned cells[65536];
__attribute__((export_name("run"))) unsigned run(unsigned count) {
  unsigned x = read();
  for (unsigned i = 0; i < count; i++) {
    x = x * 1664525u + 1013904223u;
    cells[x >> 16] += x;
    if (i % 65536 == 0) x ^= read();
  }
  return x ^ cells[x >> 16];
}
PROGRAM
clang --target=wasm32 -O2 -nostdlib -Wl,--no-entry -o module.wasm program.c
python3 -c 'for i in range(2000): print("i32:%d" % (i * 2654435761 % 2 ** 32))' > replies
moves=$(python3 -c 'import random; random.seed(1); print(";".join("goto %d" % random.randrange(10 ** 8 + 1) for i in range(100)))')

# timed NAME STATUS WORDS: the seconds and the peak of the program on these words, in NAME.time; it has to end so.
timed() {
  name=$1 status=$2
  shift 2
  came=0
  /usr/bin/time -q -f '%e %M' -o "$name.time" "$pm" "$@" > "$name.text" || came=$?
  if [ "$came" -ne "$status" ]; then
    echo "$name: status $came"
    exit 1
  fi
}

for round in 1 2 3; do
  timed run 10 run module.wasm run i32:-1 --fuel 100000000 --replies replies --record log
  timed first 0 replay module.wasm log run i32:-1 --fuel 100000000
  timed moves 0 replay module.wasm log run i32:-1 --fuel 100000000 --do "$moves"
  test "$(cat first.text)" = 'step 0 of 100000000'
  test "$(grep -c ' of 100000000$' moves.text)" = 100
  python3 - <<'CHECK'
import sys

def measured(name):
    seconds, peak = open(name + ".time").read().split()
    return float(seconds), int(peak)

(run, run_peak), (first, first_peak), (moves, moves_peak) = map(measured, ("run", "first", "moves"))
each = (moves - first) / 100
print("  pm run: %.2f s, %d KiB at most" % (run, run_peak))
print("  pm replay, first pass: %.2f s, %d KiB at most" % (first, first_peak))
print("  pm replay, 100 moves more: %.2f s, %d KiB at most" % (moves, moves_peak))
print("  each move: %.3f s, %.3f of the run" % (each, each / run))
sys.exit(each > run / 8)
CHECK
done
