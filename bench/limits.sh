#!/bin/sh
# Seconds and peak memory of `pm run` at two limits: a function that calls itself to the depth of 10,000 and traps there, and one call
# deeper; and a memory of 4,096 pages of which two are written. Beside each stands what the machine has to hold for it, and before them
# the peak of the program that does nothing. Needs the program and wabt.
set -eu
top=$(cd "$(dirname "$0")/.." && pwd)
pm=${PM:-$("$top/tools/program")}
work=$(mktemp -d)
trap 'rm -rf "$work"' EXIT

# Each frame has nine locals and one operand, of 16 bytes each, and a record of 40 bytes.
cat > "$work/depth.wat" <<'MODULE'
(module
  (func $f (export "f") (param $n i32) (local i64 i64 i64 i64 i64 i64 i64 i64)
    local.get $n
    local.get $n
    i32.eqz
    if
      unreachable
    end
    local.get $n
    i32.const 1
    i32.sub
    call $f
    drop))
MODULE
cat > "$work/pages.wat" <<'MODULE'
(module
  (memory 4096)
  (func (export "f")
    i32.const 0
    i32.const 1
    i32.store8
    i32.const 0xfffffff
    i32.const 2
    i32.store8
    unreachable))
MODULE
wat2wasm "$work/depth.wat" -o "$work/depth.wasm"
wat2wasm "$work/pages.wat" -o "$work/pages.wasm"

# measured NAME STATUS TEXT WORDS: runs the words three times. The status and the first line of the text have to be these.
measured() {
  name=$1 status=$2 text=$3
  shift 3
  for round in 1 2 3; do
    came=0
    /usr/bin/time -q -f "  $name: %e s, %M KiB at most" "$pm" "$@" > "$work/text" || came=$?
    line=$(head -n 1 "$work/text")
    if [ "$came" -ne "$status" ] || [ "$line" != "$text" ]; then
      echo "$name: status $came, $line"
      exit 1
    fi
  done
}

# shown FIRST: the first line that `show` prints of the last dump.
shown() {
  line=$("$pm" show "$work/core" | head -n 1)
  if [ "$line" != "$1" ]; then
    echo "the dump: $line"
    exit 1
  fi
  printf '  a dump of %s bytes\n' "$(wc -c < "$work/core")"
}

echo 'the program without words'
measured 'no words' 2 'usage: check, run, instrument, show, debug, selftest, replay or cover'
printf '10,000 frames: %s KiB of values and %s KiB of records\n' $((10000 * 10 * 16 / 1024)) $((10000 * 40 / 1024))
measured 'depth of 10,000' 1 'trap 1 unreachable' run "$work/depth.wasm" f i32:9999 --depth 10000 --dump "$work/core"
shown 'dump "module" frames 10000'
measured 'one call deeper' 1 'trap 8 call stack exhausted' run "$work/depth.wasm" f i32:10000 --depth 10000 --dump "$work/core"
shown 'dump "module" frames 10000'
printf 'two pages of 4,096: %s KiB of pages and %s KiB of pointers to them; all pages would take %s KiB\n' \
  $((2 * 64)) $((4096 * 8 / 1024)) $((4096 * 64))
measured 'two pages' 1 'trap 1 unreachable' run "$work/pages.wasm" f --dump "$work/core"
shown 'dump "module" frames 1'
