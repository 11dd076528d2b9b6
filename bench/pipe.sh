#!/bin/sh
# A file that can't be read from any offset but in order: `pm show` and `pm check` over a pipe give what they give over the file itself, also
# for a file of many reads. Needs the program and python3.
set -eu
top=$(cd "$(dirname "$0")/.." && pwd)
pm=${PM:-$("$top/tools/program")}
work=$(mktemp -d)
trap 'rm -rf "$work"' EXIT

same() { # COMMAND FILE
  "$pm" "$1" "$2" > "$work/file.txt"
  cat "$2" | "$pm" "$1" /dev/stdin > "$work/pipe.txt"
  cmp "$work/file.txt" "$work/pipe.txt"
  echo "$1 $(basename "$2"): the same over a pipe"
}

same show "$top/samples/stack.core"
same check "$top/samples/div.wasm"
python3 "$top/bench/make_dump.py" frames 20000 20 "$work/long.core"
same show "$work/long.core"
