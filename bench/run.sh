#!/bin/sh
# Seconds and peak memory of `pm run` beside wabt's `wasm-interp`, on integer programs that clang makes: a compressor, a hash and a sort,
# in one run. Their results must be the same. Needs the program, clang with lld, and wabt.
set -eu
top=$(cd "$(dirname "$0")/.." && pwd)
pm=${PM:-$("$top/tools/program")}
work=$(mktemp -d)
trap 'rm -rf "$work"' EXIT
for name in compress hash sort; do
  clang --target=wasm32 -O2 -nostdlib -Wl,--no-entry -o "$work/$name.wasm" "$top/bench/programs/$name.c"
  for round in 1 2 3; do
    /usr/bin/time -f "  $name, pm run: %e s, %M KiB at most" "$pm" run "$work/$name.wasm" run --fuel 100000000000
    /usr/bin/time -f "  $name, wasm-interp: %e s, %M KiB at most" wasm-interp --run-all-exports "$work/$name.wasm"
  done
done
