#!/bin/sh
# hosts_flag.sh [instrument]: host_flag.mjs in each JavaScript engine that is installed, on the module that was rewritten by hand, and with the word
# `instrument` on what `pm instrument` makes of the original. Needs wabt. PM is the program, and else ./pm.
set -eu
top=$(cd "$(dirname "$0")/.." && pwd)
pm=${PM:-$("$top/tools/program")}
work=$(mktemp -d)
trap 'rm -rf "$work"' EXIT
cd "$work"

# dump NAME WORDS: the dump of an invocation of the original, in which `divides` is exported too.
dump() {
  file=$1
  shift
  "$pm" run exported.wasm "$@" --replies none --dump "$file.core" > text || test $? = 1
}

wat2wasm "$top/bench/flag/original.wat" -o original.wasm
wat2wasm "$top/bench/flag/rewritten.wat" -o rewritten.wasm
sed 's/(func $divides/& (export "divides")/' "$top/bench/flag/original.wat" > exported.wat
wat2wasm exported.wat -o exported.wasm
: > none
dump run run i32:7 i32:0
dump divides divides i32:7 i32:0
dump through through i32:1 i32:7 i32:0
dump undefined through i32:2 i32:7 i32:0
if [ "${1:-}" = instrument ]; then
  "$pm" instrument original.wasm rewritten.wasm
fi
set -- rewritten.wasm run.core divides.core through.core undefined.core
if command -v node > /dev/null; then node "$top/bench/host_flag.mjs" "$@"; fi
if command -v gjs > /dev/null; then gjs -m "$top/bench/host_flag.mjs" "$@"; fi
if command -v jsc > /dev/null; then jsc -m "$top/bench/host_flag.mjs" -- "$@"; fi
