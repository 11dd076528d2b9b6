#!/bin/sh
# Seconds and peak memory of `pm check`, which reads and validates a module, beside wabt's `wasm-validate` and
# `wasm-objdump -h`, on modules of 1 and 10 MB that clang makes. Needs the program
# python3, clang with lld, and wabt.
set -eu
top=$(cd "$(dirname "$0")/.." && pwd)
pm=${PM:-$("$top/tools/program")}
work=$(mktemp -d)
trap 'rm -rf "$work"' EXIT
for functions in 2600 26000; do
  python3 "$top/bench/make_c.py" $functions "$work/program.c"
  clang --target=wasm32 -O1 -nostdlib -Wl,--no-entry -Wl,--export-all -o "$work/program.wasm" "$work/program.c"
  printf '%s functions, %s bytes\n' $functions "$(wc -c < "$work/program.wasm")"
  for round in 1 2 3; do
    /usr/bin/time -f '  pm check: %e s, %M KiB at most' "$pm" check "$work/program.wasm"
    /usr/bin/time -f '  wasm-validate: %e s, %M KiB at most' wasm-validate "$work/program.wasm"
    /usr/bin/time -f '  wasm-objdump -h: %e s, %M KiB at most' wasm-objdump -h "$work/program.wasm" > "$work/program.txt"
  done
done
