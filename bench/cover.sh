#!/bin/sh
# `pm cover` beside gcov, line by line, on integer programs that clang makes without optimization, and gcc natively: a compressor, a hash, a
# sort and large numbers. Where a line has no branches and opens no function, its steps have to be its instructions times what gcov counts; on
# the others there have to be steps exactly where gcov counts. Then the seconds of `pm cover` beside those of `pm run`, in rounds of three. Needs the program
# clang with lld, llvm-objdump, llvm-dwarfdump, gcc with gcov, and python3.
set -eu
top=$(cd "$(dirname "$0")/.." && pwd)
pm=${PM:-$("$top/tools/program")}
work=$(mktemp -d)
trap 'rm -rf "$work"' EXIT
cd "$work"
status=0
printf 'unsigned run(void);\nint main(void) {\n  run();\n  return 0;\n}\n' > main.c
for name in compress hash sort bignum; do
  cp "$top/bench/programs/$name.c" "$name.c"
  clang --target=wasm32 -gdwarf-4 -O0 -fno-builtin -c -o module.o "$name.c"
  wasm-ld --no-entry -o module.wasm module.o
  gcc -w -O0 --coverage -c -o "$name.o" "$name.c"
  gcc -w -c -o main.o main.c
  gcc --coverage -o native "$name.o" main.o
  ./native
  gcov -o . "$name.o" > /dev/null
  llvm-objdump -d module.wasm > disassembly
  llvm-dwarfdump --debug-line module.wasm > rows
  echo "$name.c, $(wc -l < "$name.c") lines"
  "$pm" cover module.wasm run --fuel 100000000000 > covered
  python3 "$top/bench/compare_cover.py" disassembly rows covered "$name.c.gcov" || status=1
  for round in 1 2 3; do
    /usr/bin/time -f '  pm cover: %e s, %M KiB at most' "$pm" cover module.wasm run --fuel 100000000000 > covered
    /usr/bin/time -f '  pm run: %e s, %M KiB at most' "$pm" run module.wasm run --fuel 100000000000 > text
  done
done
exit "$status"
