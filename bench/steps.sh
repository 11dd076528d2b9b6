#!/bin/sh
# Processor instructions that a step of `pm run` takes, on integer programs that clang makes: by valgrind's callgrind, as the difference of
# runs of 101,000 and of 1,000 steps. Needs the program, clang with lld, and valgrind.
set -eu
top=$(cd "$(dirname "$0")/.." && pwd)
pm=${PM:-$("$top/tools/program")}
work=$(mktemp -d)
trap 'rm -rf "$work"' EXIT
count() {
  valgrind --tool=callgrind --callgrind-out-file=/dev/null "$pm" run "$1" run --fuel "$2" 2>&1 | sed -n 's/.*Collected : //p'
}
for name in compress hash sort bignum; do
  for level in O2 O0; do
    clang --target=wasm32 "-$level" -fno-builtin -nostdlib -Wl,--no-entry -o "$work/$name.wasm" "$top/bench/programs/$name.c"
    few=$(count "$work/$name.wasm" 1000)
    many=$(count "$work/$name.wasm" 101000)
    echo "  $name, -$level: $(((many - few) / 100000)) instructions a step"
  done
done
