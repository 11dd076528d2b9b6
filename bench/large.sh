#!/bin/sh
# `pm debug` on a module with 100 MB of debugging information as clang writes it, of versions 4 and 5: the processor seconds and the memory of `bt` and
# `vars` beside those of llvm-dwarfdump, which prints its units alone, and of `x 0 16`, which needs none of it, beside `check`. The frames are
# compared with those of llvm-symbolizer. The module is one program of make_c.py that is linked several times with itself: its functions are weak,
# so that the linker keeps the code of the first of them and the debugging information of all.
# It exits with 1 where frames differ, where `bt` or `vars` takes more than 3 times as long as llvm-dwarfdump or more than 10 bytes of memory for each
# of the module, or where `x 0 16` takes more than 1.3 times as long as `check`; such a line has `<--`. The program is PM in the environment, else
# ./pm of this checkout; FUNCTIONS and COPIES there are how many functions the program has, and how often it is linked. Needs python3, clang and lld
# of a version, llvm-dwarfdump, llvm-symbolizer and GNU time.
set -eu
top=$(cd "$(dirname "$0")/.." && pwd)
pm=$(realpath "${PM:-$("$top/tools/program")}")
helper="$top/bench/compare_debug.py"
newest=$(command -v clang-19 > /dev/null && echo 19 || echo 14)
dumper=$(command -v "llvm-dwarfdump-$newest" || command -v llvm-dwarfdump)
work=$(mktemp -d)
trap 'rm -rf "$work"' EXIT
cd "$work"
status=0

# make FLAGS: the module, its dump, and the addresses of the dump's frames.
make() {
  "clang-$newest" --target=wasm32 $1 -O0 -fno-builtin -c -o large.o weak.c
  set --
  for _ in $(seq "${COPIES:-10}"); do set -- "$@" large.o; done
  "wasm-ld-$newest" --no-entry -o module.wasm "$@"
  code=0
  "$pm" run module.wasm run i32:1 i32:2 --fuel 1000000000 > text || code=$?
  test "$code" = 1
  "$pm" show core.wasm > shown
  python3 "$helper" addresses module.wasm shown > addresses
}

# measured NAME COMMAND ..: the least processor seconds of three rounds, and the most KiB, into the file NAME.
measured() {
  name=$1
  shift
  rm -f rounds
  for _ in 1 2 3; do /usr/bin/time -q -a -o rounds -f '%U %S %M' "$@" > printed; done
  awk '{ seconds = $1 + $2; if (NR == 1 || seconds < least) least = seconds; if ($3 > most) most = $3 } END { print least, most }' rounds > "$name"
}

# judged NAME OTHER TIMES BYTES: tells what was measured of both; BYTES of memory for each of the module are allowed, where that is told.
judged() {
  echo "$(cat "$1") $(cat "$2") $(wc -c < module.wasm)" | awk -v name="$1" -v other="$2" -v times="$3" -v bytes="${4:-0}" '{
    memory = $2 * 1024 / $5
    wrong = $1 > times * $3 + 0.01 || (bytes && memory > bytes)
    printf "  %s: %.2f s, %.1f bytes a byte; %s: %.2f s%s\n", name, $1, memory, other, $3, wrong ? "  <--" : ""
    exit wrong
  }' || status=1
}

python3 "$top/bench/make_c.py" "${FUNCTIONS:-17000}" large.c
python3 "$helper" plant large.c planted.c
sed 's/left = 20000/left = 20/; s/^unsigned f/__attribute__((weak)) &/; s/^__attribute__((export_name("run"))) unsigned/__attribute__((weak)) &/' planted.c > weak.c
for flags in -gdwarf-4 -gdwarf-5; do
  make "$flags"
  echo "clang $newest $flags: $(wc -c < module.wasm) bytes, $(grep -c instance shown) frames"
  measured units "$dumper" --debug-info module.wasm
  measured check "$pm" check module.wasm
  measured x "$pm" debug module.wasm core.wasm 'x 0 16'
  measured vars "$pm" debug module.wasm core.wasm vars
  measured bt "$pm" debug module.wasm core.wasm bt
  llvm-symbolizer --functions=short --obj=module.wasm < addresses > symbols
  python3 "$helper" frames printed symbols || status=1
  judged bt units 3 10
  judged vars units 3 10
  judged x check 1.3
done
exit "$status"
