#!/bin/sh
# Processor seconds of a whole process of node that makes 50 calls of a module, compiling included: integer programs that clang makes (a
# compressor, two hashes, one of them with its rounds written out, a sort and large numbers, plain and optimized), beside what `pm instrument`
# rewrites them to and what binaryen's asyncify does; the least of three rounds that take turns. Their results must be the same. Needs the
# program, clang with lld, binaryen and node.
set -eu
top=$(cd "$(dirname "$0")/.." && pwd)
pm=${PM:-$("$top/tools/program")}
work=$(mktemp -d)
trap 'rm -rf "$work"' EXIT
cd "$work"
link='-nostdlib -fno-builtin -Wl,--no-entry -Wl,--strip-all'
for name in compress hash rounds sort bignum; do
  for level in 0 2; do
    clang --target=wasm32 -O$level $link -o original.wasm "$top/bench/programs/$name.c"
    "$pm" instrument original.wasm ours.wasm > text
    wasm-opt --asyncify --pass-arg='asyncify-addlist@*' original.wasm -o asyncify.wasm
    rm -f results *.times
    for round in 1 2 3; do
      for module in original ours asyncify; do
        /usr/bin/time -a -o $module.times -f '%U %S' node "$top/bench/process.mjs" $module.wasm 50 >> results
      done
    done
    test "$(sort -u results | wc -l)" = 1
    for module in original ours asyncify; do
      seconds=$(awk '{ s = $1 + $2; if (NR == 1 || s < least) least = s } END { printf "%.2f", least }' $module.times)
      echo "  $name -O$level, $module: $(wc -c < $module.wasm) bytes, $seconds s"
    done
  done
done
