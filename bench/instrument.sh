#!/bin/sh
# Size, and time in node, of integer programs that clang makes (a compressor, two hashes, one of them with its rounds written out, a sort,
# arithmetic of large numbers, a parser with tables and an interpreter; plain, optimized, and for size), beside what `pm instrument` rewrites
# them to and what binaryen's asyncify does, which is to instrument all functions too; in one run, with the ratios; the optimized ones behind
# wasm-opt too, and in a second engine where gjs is there. CLANGS names compilers. Then seconds and peak memory of `pm instrument` on a module
# of 1 MB. Needs the program, clang with lld, binaryen, node and python3.
set -eu
top=$(cd "$(dirname "$0")/.." && pwd)
pm=${PM:-$("$top/tools/program")}
work=$(mktemp -d)
trap 'rm -rf "$work"' EXIT
cd "$work"
link='-nostdlib -fno-builtin -Wl,--no-entry -Wl,--strip-all'
measure() { node "$top/bench/instrument.mjs" "$@"; }
for clang in ${CLANGS:-clang}; do
  for name in compress hash rounds sort bignum parser interpreter; do
    for level in 0 2 s; do
      "$clang" --target=wasm32 -O$level $link -o original.wasm "$top/bench/programs/$name.c"
      "$pm" instrument original.wasm ours.wasm > text
      wasm-opt --asyncify --pass-arg='asyncify-addlist@*' original.wasm -o asyncify.wasm
      measure "$name -O$level, $clang" original.wasm ours.wasm asyncify.wasm
      test $level = 2 || continue
      for module in original ours asyncify; do wasm-opt -O2 $module.wasm -o $module.2.wasm; done
      measure "$name -O$level, $clang, all behind wasm-opt -O2" original.2.wasm ours.2.wasm asyncify.2.wasm
      if command -v gjs > /dev/null; then
        gjs -m "$top/bench/instrument.mjs" "$name -O$level, $clang, in gjs" original.wasm ours.wasm asyncify.wasm
      fi
    done
  done
done
python3 "$top/bench/make_c.py" 3000 program.c
clang --target=wasm32 -O1 $link -Wl,--export-all -o program.wasm program.c
for round in 1 2 3; do
  /usr/bin/time -f '  pm instrument: %e s, %M KiB at most' "$pm" instrument program.wasm rewritten.wasm
done
printf '%s bytes, rewritten to %s\n' "$(wc -c < program.wasm)" "$(wc -c < rewritten.wasm)"
