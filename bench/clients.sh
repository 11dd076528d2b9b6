#!/bin/sh
# clients.sh          whether the clients of clients/ show what is so
# clients.sh speed    what moves of the prompt take of the processor in a run of 10^8 steps, beside going through it once
#
# The stories of README: the prompt at a pseudo-terminal, the debug adapter as an editor asks it, and pages of genhtml
# beside gcov; of modules of clang 14 and clang 19. What they show is compared with the sources, with what the programs
# themselves wrote, and with llvm-symbolizer and gcov. Then all of them on bad input, and the commands of
# clients/README.md. The programs for the pages are of small inputs: cover.sh compares the counts of large ones. Needs
# the program (PM names it, else it is pm of this checkout), clang and lld of a version, llvm-symbolizer,
# llvm-dwarfdump, llvm-objdump, lcov, gcc with gcov, python3 and pyflakes3; it passes over a version of clang that is
# missing.
set -eu
top=$(cd "$(dirname "$0")/.." && pwd)
PM=$(readlink -f "${PM:-$("$top/tools/program")}")
export PM
helper="$top/bench/play_clients.py"
work=$(mktemp -d)
trap 'rm -rf "$work"' EXIT
status=0
git -C "$top" status --porcelain --ignored clients bench > "$work/before"
pyflakes3 "$top"/clients/*.py "$helper"

# enter NAME: a folder of its own, in which the sources have the names that README shows.
enter() {
  mkdir "$work/$1"
  cd "$work/$1"
  ln -s "$top/bench" "$top/clients" .
  printf '#!/bin/sh\nexec "%s" "$@"\n' "$PM" > pm
  chmod +x pm
}

# make MODULE PROGRAM CLANG FLAGS: compiled and linked by hand, since clang may call wasm-opt behind the linker.
make() {
  module=$1 program=$2 version=$3
  shift 3
  "clang-$version" --target=wasm32 "$@" -fno-builtin -c -o module.o "$program"
  "wasm-ld-$version" --no-entry -o "$module" module.o
  rm module.o
}

# die MODULE DUMP ARGUMENTS: runs it up to its trap.
die() {
  code=0
  "$PM" run "$1" run $3 --dump "$2" --record log > text || code=$?
  test $code = 1
  rm text
}

# stories CLANG FLAGS: the modules of the stories, and both clients on them.
stories() {
  echo "clang $*"
  enter "stories-$1"
  for name in tree notes values; do make "$name.wasm" "bench/programs/traps/$name.c" "$@"; done
  die tree.wasm tree.core 'i32:9 i32:0'
  die values.wasm values.core 'i32:12 i32:3'
  die notes.wasm notes.core i32:12
  "$PM" show tree.core > shown
  python3 "$top/bench/compare_debug.py" addresses tree.wasm shown > addresses
  llvm-symbolizer --functions=short --obj=tree.wasm < addresses > symbols
  python3 "$helper" prompt . || status=1
  python3 "$helper" editor . || status=1
}

# small NAME: a program of bench/programs of which the inputs are small.
small() {
  sed 's/^#define SIZE .*/#define SIZE 64u/; s/^#define COUNT .*/#define COUNT 20u/
    s/i <= 600/i <= 30/; s/i == 300/i == 15/; s/round <= 40/round <= 0/' "bench/programs/$1.c" > "$1.c"
}

# page NAME CLANG FLAGS: the tracefile of a program, and what gcov says of it.
page() {
  name=$1
  shift
  small "$name"
  make "$name.wasm" "$name.c" "$@"
  "$PM" cover "$name.wasm" run > "$name.covered"
  python3 "$top/clients/pm2lcov.py" "$name.wasm" "$name.covered" > "$name.info"
  llvm-objdump -d "$name.wasm" > "$name.disassembly"
  llvm-dwarfdump --debug-line "$name.wasm" > "$name.rows"
  gcc -w -O0 --coverage -c -o "$name.o" "$name.c"
  printf 'unsigned run(void);\nint main(void) {\n  run();\n  return 0;\n}\n' | gcc -w -x c -c -o main.o -
  gcc --coverage -o native "$name.o" main.o
  ./native
  gcov -f -o . "$name.o" > "$name.functions"
}

older='14 -gdwarf-4 -glldb' newer='19 -g'
command -v clang-14 > /dev/null || { echo 'clang 14 is missing'; older=$newer; }
command -v clang-19 > /dev/null || { echo 'clang 19 is missing'; newer=$older; }
if [ "${1:-}" = speed ]; then
  enter speed
  cat > program.c <<'PROGRAM'
static unsigned cells[65536], sum;
static unsigned half(unsigned x) { return x / 2 + 1; }
static unsigned work(unsigned x, unsigned count) {
  for (unsigned i = 0; i < count; i++) {
    x = x * 1664525u + 1013904223u;
    cells[x >> 16] += x;
    if (i % 65536 == 65535) x ^= half(x);
  }
  return x ^ cells[x >> 16];
}
__attribute__((export_name("run"))) unsigned run(unsigned x) {
  x = work(x, 50); // short
  x = work(x, 40000);
  sum += x;
  x = work(x, 200000);
  sum += x;
  x = work(x, 2000000000);
  return x;
}
PROGRAM
  make module.wasm program.c $newer
  : > log
  python3 "$helper" speed . "${2:-100000000}"
  exit
fi

stories $older
test "$older" = "$newer" || stories $newer

enter pages
page sort $older
page hash $older
page compress $newer
page bignum $newer -gdwarf-5
genhtml -q -o html sort.info hash.info compress.info bignum.info
python3 "$helper" pages . sort hash compress bignum || status=1

enter refusals
cp bench/programs/traps/tree.c .
for name in tree notes; do make "$name.wasm" "bench/programs/traps/$name.c" $older; done
make bare.wasm bench/programs/traps/tree.c "${older%% *}"
cat > calls.c <<'PROGRAM'
__attribute__((import_module("env"), import_name("read"))) int read(void);
__attribute__((import_module("env"), import_name("write"))) void write(int);
__attribute__((export_name("run"))) int run(void) {
  write(read());
  return 0;
}
PROGRAM
make calls.wasm calls.c $older
die tree.wasm tree.core 'i32:9 i32:0'
echo i32:5 > one
head -c 100 tree.wasm > cut.wasm
"$PM" instrument tree.wasm tree.inst.wasm > text
python3 "$helper" refusals . || status=1

enter page
python3 "$helper" page . "$top/clients/README.md" || status=1
cd "$top"
git status --porcelain --ignored clients bench | diff "$work/before" - || status=1
exit "$status"
