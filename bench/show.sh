#!/bin/sh
# Seconds and peak memory of `pm show` on large dumps. Needs the program and python3.
set -eu
top=$(cd "$(dirname "$0")/.." && pwd)
pm=${PM:-$("$top/tools/program")}
work=$(mktemp -d)
trap 'rm -rf "$work"' EXIT
python3 "$top/bench/make_dump.py" frames 65536 20 "$work/frames.core"
python3 "$top/bench/make_dump.py" pages 6400 "$work/pages.core"
truncate -s 536870913 "$work/long.core" # one byte past the limit
for dump in frames pages long; do
  printf '%s: %s bytes\n' "$dump" "$(wc -c < "$work/$dump.core")"
  /usr/bin/time -f '  %e s, %M KiB at most' "$pm" show "$work/$dump.core" > "$work/$dump.txt" || true
  head -n 1 "$work/$dump.txt" | cut -c 1-60
  printf '  %s lines\n' "$(wc -l < "$work/$dump.txt")"
done
