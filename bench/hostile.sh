#!/bin/sh
# `pm` under hostile use, in three parts, of which it runs those that are named, or all:
#   memory   each request for memory refused in turn, alone and with all behind it, and a growing limit of the address space: the answer, or status 15
#            without a text and with files that hold a front
#   mutants  modules, dumps, replies and words that are damaged at random, under a limit of time and in part under valgrind (mutants.py says what
#            is looked at); COUNT, SECONDS, SEED and EVERY in the environment change how many, for how long, which, and how rarely under valgrind
#   shapes   inputs whose shape costs much, at two sizes: seconds grow no faster than bytes (shapes.py); and modules on which `debug` could take
#            a product of two counts, at 1 MB and 4 MB: seconds, how they grow, and memory have to keep within bounds (costs.py)
# It exits with 1 where something differs. Needs the program, python3, a C compiler, clang and lld of a version for wasm32, GNU time for the shapes,
# and valgrind for its part; with wabt, `check` is compared with wasm-validate, and where node is there with its engine too.
set -eu
top=$(cd "$(dirname "$0")/.." && pwd)
pm=$(realpath "${PM:-$("$top/tools/program")}")
work=$(mktemp -d)
kept=$(mktemp -d)
trap 'rm -rf "$work"; rmdir "$kept" 2> /dev/null || echo "what went wrong is in $kept"' EXIT
cd "$work"
wrong=0

# The module that imports `env.read`, calls it and traps, and the one that has debugging information, byte by byte from the tests' crate.
python3 - "$top/crates/test_modules/src/lib.rt" <<'PROGRAM'
import re
import sys

text = open(sys.argv[1], encoding="utf-8").read()
for title in ("DIVISION", "READING", "SOURCE"):
    block = re.search(r"pub const %s: \[u8; \d+\] = \[(.*?)\];" % title, text, re.S)[1]
    with open(f"{title.lower()}.wasm", "wb") as out:
        out.write(bytes(int(byte, 16) for byte in re.findall(r"0x(..)", block)))
PROGRAM
printf 'i32:9 16=01020304' > replies

# kept FILE: whether it is not there, or holds a front of what it holds in the folder of the whole answer.
kept() {
  [ ! -e "$1" ] || head -c "$(wc -c < "$1")" "whole/$1" | cmp -s - "$1"
}

# judge WHAT: the run that ended by `came` gave the answer, or ran out of memory.
judge() {
  runs=$((runs + 1))
  if [ "$came" = "$answer" ] && cmp -s text whole/text; then return; fi
  short=$((short + 1))
  if [ "$came" = 15 ] && [ ! -s text ] && kept a && kept b && kept selftest.wasm && kept selftest.inst.wasm; then return; fi
  echo "$1: status $came, $(head -c 300 text)"
  wrong=1
}

# short_of_memory WORDS: the words write into a, or b, or the files of a self-test.
short_of_memory() {
  rm -rf whole a b selftest.wasm selftest.inst.wasm
  mkdir whole
  answer=0 runs=0 short=0
  (cd whole; for file in ../*.wasm ../*.core ../replies; do [ ! -e "$file" ] || ln -s "$file" .; done)
  (cd whole; exec "$pm" "$@" > text) || answer=$?
  COUNTED="$work/counted" LD_PRELOAD="$work/refuse.so" "$pm" "$@" > text || true
  requests=$(cat counted)
  for number in $(seq 1 "$requests"); do
    for from in REFUSED REFUSED_FROM; do
      rm -f a b selftest.wasm selftest.inst.wasm
      came=0
      env "$from=$number" LD_PRELOAD="$work/refuse.so" "$pm" "$@" > text 2>&1 || came=$?
      judge "pm $*, request $number ($from)"
    done
  done
  # Below the least limit at which the program without words starts it can't be asked.
  answered=0
  for limit in $(seq 1024 128 600000); do
    came=0
    (ulimit -v "$limit"; exec "$pm" > text 2>&1) || came=$?
    if [ "$came" != 2 ]; then continue; fi
    rm -f a b selftest.wasm selftest.inst.wasm
    came=0
    (ulimit -v "$limit"; exec "$pm" "$@" > text 2>&1) || came=$?
    judge "pm $*, $limit KiB"
    if [ "$came" = "$answer" ]; then answered=$((answered + 1)); fi
    if [ "$answered" -gt 3 ]; then break; fi
  done
  echo "pm $*: status $answer; $requests requests, $runs runs, $short of them short of memory"
}

memory() {
  cc -w -O1 -shared -fPIC -o refuse.so "$top/bench/refuse.c"
  "$pm" instrument division.wasm rewritten.wasm > text
  "$pm" run source.wasm f i32:65536 --dump source.core > text || true
  short_of_memory check division.wasm
  short_of_memory run division.wasm div i32:7 i32:0 --dump a
  short_of_memory show "$top/samples/stack.core"
  short_of_memory instrument division.wasm a
  short_of_memory run rewritten.wasm div i32:7 i32:0 --collect --dump b
  short_of_memory run reading.wasm f --replies replies --dump a
  short_of_memory run source.wasm f i32:65536 --dump a
  short_of_memory debug source.wasm source.core bt vars 'print s.b[1]' 'print *p'
  if "$pm" selftest 3 > text; then short_of_memory selftest 3; fi
}

# made CLANG FLAGS PROGRAM ARGUMENTS: a module with the words of its run, its dump, and its rewriting beside it.
made() {
  title="$(basename "$3" .c)$(echo "$1$2" | tr -cd '0-9A-Za-z')"
  "clang-$1" --target=wasm32 $2 -fno-builtin -c -o module.o "$top/bench/programs/$3"
  "wasm-ld-$1" --no-entry -o "sources/$title.wasm" module.o
  echo "run $4" > "sources/$title.words"
  "$pm" run "sources/$title.wasm" run $4 --fuel 100000000 --dump "sources/$title.core" > text || true
}

sources() {
  mkdir sources
  cp "$top/samples/div.wasm" sources/
  cp "$top/samples/core.wasm" sources/div.core
  echo 'div i32:7 i32:0' > sources/div.words
  cp source.wasm sources/
  echo 'f i32:65536' > sources/source.words
  "$pm" run source.wasm f i32:65536 --dump sources/source.core > text || true
  cp reading.wasm sources/
  cp replies sources/reading.replies
  echo 'f --replies r' > sources/reading.words
  "$pm" run reading.wasm f --replies replies --dump sources/reading.core > text || true
  for version in 14 19; do
    if ! command -v "clang-$version" > text; then echo "clang $version is missing"; continue; fi
    for flags in '-O0 -gdwarf-4' '-O2 -gdwarf-4' '-O1 -gdwarf-5'; do
      made "$version" "$flags" traps/tree.c 'i32:7 i32:0'
      made "$version" "$flags" traps/states.c 'i32:4 i32:0'
      made "$version" "$flags" traps/values.c 'i32:12 i32:3'
    done
  done
}

mutants() {
  sources
  python3 "$top/bench/mutants.py" "$pm" sources "${SEED:-1}" "${COUNT:-4000}" "${SECONDS_AT_MOST:-900}" "${EVERY:-400}" "$kept" || wrong=1
}

shapes() {
  python3 "$top/bench/shapes.py" "$pm" || wrong=1
  python3 "$top/bench/costs.py" "$pm" || wrong=1
}

for part in ${*:-memory mutants shapes}; do
  echo "$part:"
  "$part"
done
exit "$wrong"
