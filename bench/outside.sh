#!/bin/sh
# `pm` over a system that gets in its way: a full disk, files without permission, folders in place of files, pipes, a closed output, a file that
# shrinks while it is read, and a limit of the size of files. Of each the status and the text have to be those that stand here, and files
# are as they were, or hold a front. It prints a line for each group, and exits with 1 where something differs. Needs the program
# a C compiler for the file that shrinks, and, where root runs it, setpriv for the files without permission.
set -u
top=$(cd "$(dirname "$0")/.." && pwd)
pm=${PM:-$("$top/tools/program")}
work=$(mktemp -d)
trap 'rm -rf "$work"' EXIT
chmod 755 "$work"
cd "$work"
cp "$top/samples/div.wasm" "$top/samples/core.wasm" "$top/samples/stack.core" .
wrong=0
rows=0
trapped='trap 2 integer divide by zero
at function 0 offset 5
host calls 0'
valid='valid types 1 imports 0 functions 1 exports 1 custom 0'

# is WHAT CAME WANTED
is() {
  rows=$((rows + 1))
  if [ "$2" != "$3" ]; then
    printf '%s: %s, and not %s\n' "$1" "$2" "$3"
    wrong=1
  fi
}

# ends STATUS TEXT WORDS: what the program prints, and how it ends.
ends() {
  status=$1 text=$2
  shift 2
  came=0
  timeout 60 "$pm" "$@" > text 2> errors || came=$?
  is "status of pm $*" "$came" "$status"
  is "text of pm $*" "$(cat text)" "$text"
  is "errors of pm $*" "$(cat errors)" ''
}

# holds FILE OTHER: whether the first one holds what the other one does.
holds() { is "what $1 holds" "$(cmp "$1" "$2" 2>&1)" ''; }

echo 'files that are there'
ends 0 "$valid" check div.wasm
ends 1 "$trapped" run div.wasm div i32:7 i32:0 --dump out
holds out core.wasm

echo 'names without a file'
ends 3 'no file: "none"' check none
ends 3 'no file: ""' check ''
ends 3 'no file: "none"' debug div.wasm none bt
ends 3 'no file: "none"' run div.wasm div i32:7 i32:0 --replies none
ln -s none dangling
ends 3 'no file: "dangling"' show dangling
ln -s loop loop
ends 4 'file fault: "loop"' show loop
ends 4 'file fault: "div.wasm/x"' check div.wasm/x
long=$(printf '%0300d' 0)
ends 4 "file fault: \"$long\"" check "$long"
ends 3 'no file: "a\0ab"' check 'a
b'
ends 2 'usage: check, run, instrument, show, debug, selftest, replay or cover' check "$(printf 'a\377')"

echo 'folders'
mkdir folder
ends 4 'file fault: "folder"' check folder
ends 4 'file fault: "folder"' debug div.wasm folder
ends 4 'file fault: "folder"' run div.wasm div i32:7 i32:0 --dump folder
ends 4 'file fault: "folder"' instrument div.wasm folder
ends 4 'file fault: "none/out"' instrument div.wasm none/out
is 'the folder' "$(ls folder)" ''

echo 'a full disk'
ends 4 'file fault: "/dev/full"' run div.wasm div i32:7 i32:0 --dump /dev/full
ends 4 'file fault: "/dev/full"' instrument div.wasm /dev/full
for words in 'check div.wasm' 'check none' 'show core.wasm' 'run div.wasm div i32:7 i32:0 --dump full' 'help'; do
  came=0
  "$pm" $words > /dev/full || came=$?
  is "status of pm $words on a full disk" "$came" 4
done
holds full core.wasm

echo 'files that may not grow past a size'
# A file holds a front of what was to be written.
printf '\0asm\1\0\0\0\1\4\1\140\0\0\3\2\1\0\5\3\1\0\1\7\5\1\1f\0\0\12\14\1\12\0\101\0\101\1\72\0\0\0\13' > page.wasm
ends 1 'trap 1 unreachable
at function 0 offset 8
host calls 0' run page.wasm f --dump whole
came=0
(trap '' XFSZ; ulimit -f 8; exec "$pm" run page.wasm f --dump front) > text || came=$?
is 'status with a limit of the size' "$came" 4
is 'text with a limit of the size' "$(cat text)" 'file fault: "front"'
size=$(wc -c < front)
is 'size of the front' "$([ "$size" -gt 0 ] && [ "$size" -lt 65536 ] && echo some)" some
head -c "$size" whole > begun
holds front begun

echo 'files without permission'
cp div.wasm closed
chmod 000 closed
mkdir kept
chmod 555 kept
echo old > fixed
chmod 444 fixed
if [ "$(id -u)" = 0 ]; then
  as="setpriv --reuid=65534 --regid=65534 --clear-groups"
  chmod 777 .
else
  as=
fi
# refused TEXT WORDS: the same without rights.
refused() {
  text=$1
  shift
  came=0
  $as "$pm" "$@" > text || came=$?
  is "status of pm $* without permission" "$came" 4
  is "text of pm $* without permission" "$(cat text)" "$text"
}
if $as "$pm" check div.wasm > text 2> errors; then
  refused 'file fault: "closed"' check closed
  refused 'file fault: "closed"' debug div.wasm closed
  refused 'file fault: "kept/out"' instrument div.wasm kept/out
  refused 'file fault: "fixed"' instrument div.wasm fixed
  refused 'file fault: "fixed"' run div.wasm div i32:7 i32:0 --dump fixed
  is 'the file that may not be written' "$(cat fixed)" old
  is 'the folder that may not be written' "$(ls kept)" ''
else
  echo '  passed over: the program can not be run as another user here'
fi

echo 'pipes'
mkfifo pipe
cat div.wasm > pipe &
ends 0 "$valid" check pipe
cat core.wasm > pipe &
ends 0 '#0 ? (function 0 offset 5)' debug div.wasm pipe bt
head -c 30 div.wasm > pipe &
ends 5 'malformed module at 30' check pipe
: > pipe &
ends 5 'malformed module at 0' check pipe
rm pipe
came=0
"$pm" show /dev/stdin < core.wasm > text || came=$?
is 'status of a file on standard input' "$came" 0
came=0
"$pm" show /dev/stdin <&- > text || came=$?
is 'status without standard input' "$came $(cat text)" '3 no file: "/dev/stdin"'

echo 'devices'
ends 5 'malformed module at 0' check /dev/null
ends 13 'limit: module bytes 134217729 over 134217728' check /dev/zero
ends 13 'limit: dump bytes 536870913 over 536870912' show /dev/zero
truncate -s 1T sparse
ends 13 'limit: module bytes 134217729 over 134217728' check sparse
rm sparse
ends 4 'file fault: "/proc/self/mem"' check /proc/self/mem

echo 'a closed output'
for words in 'check div.wasm' 'none' 'run div.wasm div i32:7 i32:0 --dump shut'; do
  came=0
  "$pm" $words >&- || came=$?
  is "status of pm $words with a closed output" "$came" 4
done
holds shut core.wasm
for words in 'show core.wasm' 'check none'; do
  { came=0; "$pm" $words || came=$?; echo "$came" > came; } | true
  is "status of pm $words with nobody to read" "$(cat came)" 4
done

echo 'one file in two places'
cp div.wasm both
ends 0 'instrumented weight 2104' instrument both both
ends 0 'valid types 5 imports 3 functions 2 exports 1 custom 0' check both
cp div.wasm both
ends 1 "$trapped" run both div i32:7 i32:0 --dump both
holds both core.wasm

echo 'a file that shrinks while it is read'
cat > shrink.c <<'PROGRAM'
#define _GNU_SOURCE
#include <dlfcn.h>
#include <stdlib.h>
#include <unistd.h>

/* Cuts the file in SHRINKS to 70,000 bytes behind the first read of a whole piece. */
ssize_t read(int file, void *into, size_t size) {
  static ssize_t (*next)(int, void *, size_t);
  static int is_cut;
  if (!next) next = dlsym(RTLD_NEXT, "read");
  ssize_t count = next(file, into, size);
  if (count == 65536 && !is_cut) {
    is_cut = 1;
    if (truncate(getenv("SHRINKS"), 70000)) abort();
  }
  return count;
}
PROGRAM
if cc -w -shared -fPIC -o shrink.so shrink.c -ldl 2> errors; then
  # A custom section of 200,000 bytes, which then ends behind 70,000.
  { head -c 8 div.wasm; printf '\0\300\232\14\1x'; head -c 199998 /dev/zero; } > large
  ends 0 'valid types 0 imports 0 functions 0 exports 0 custom 1' check large
  came=0
  SHRINKS=large LD_PRELOAD="$work/shrink.so" "$pm" check large > text || came=$?
  is 'the file that was cut' "$(wc -c < large)" 70000
  is 'a file that shrinks' "$came $(cat text)" '5 malformed module at 9'
fi

echo "$rows things looked at"
exit "$wrong"
