#!/bin/sh
# `pm debug` on traps of programs in C, C++ and Rust that clang and rustc make: `bt` beside llvm-symbolizer, frame by frame, by function, file and line; and, of plain
# programs, `vars` and `print` beside what the program itself wrote of its variables before it trapped. clang 14 makes version 4 of the
# debugging information, clang 19 versions 4 and 5, plain and optimized. Then the time and the memory of `bt`, beside llvm-symbolizer on the
# same addresses, in rounds of three, also of a module with 10 MB of debugging information. Needs the program
# python3, clang and lld of a version, and llvm-symbolizer; it passes over a version of clang that is missing, and over Rust where no rustc has
# the library of wasm32 (Debian's packages rustc and libstd-rust-dev-wasm32).
set -eu
top=$(cd "$(dirname "$0")/.." && pwd)
pm=${PM:-$("$top/tools/program")}
helper="$top/bench/compare_debug.py"
work=$(mktemp -d)
trap 'rm -rf "$work"' EXIT
cd "$work"
status=0

if ! command -v llvm-symbolizer > /dev/null; then echo 'llvm-symbolizer is missing'; exit 1; fi

# make CLANG FLAGS PROGRAM: the module of a program, in which a fault was planted where it does not trap by itself. It is linked by hand: clang
# calls binaryen's wasm-opt behind the linker where it is there, and that one moves code, loses the lines and does not read version 5.
make() {
  file=$(basename "$3")
  python3 "$helper" plant "$3" "planted-$file"
  mv "planted-$file" "$file"
  "clang-$1" --target=wasm32 $2 -fno-builtin -c -o module.o "$file"
  "wasm-ld-$1" --no-entry -o module.wasm module.o
}

# die ARGUMENTS: runs it up to its trap.
die() {
  code=0
  "$pm" run module.wasm run $1 --fuel 1000000000 --dump core.wasm > text || code=$?
  test $code = 1
  "$pm" show core.wasm > shown
  python3 "$helper" addresses module.wasm shown > addresses
}

# rows CLANG FLAGS: the programs, each on its arguments.
rows() {
  for row in 'traps/tree i32:7 i32:0' 'traps/parser i32:50 i32:0' 'traps/states i32:2 i32:0' 'traps/states i32:3 i32:0' \
      'traps/states i32:4 i32:0' 'traps/states i32:5 i32:0' 'traps/states i32:6 i32:0' 'traps/values i32:12 i32:3' sort compress hash bignum; do
    program=${row%% *}
    arguments=$(echo "$row" | cut -s -d ' ' -f 2-)
    make "$1" "$2" "$top/bench/programs/$program.c"
    die "$arguments"
    echo "clang $1 $2, $program.c: $(head -n 1 text)"
    "$pm" debug module.wasm core.wasm bt > printed
    llvm-symbolizer --functions=short --obj=module.wasm < addresses > symbols
    python3 "$helper" frames printed symbols || status=1
    case "$2 $program" in
    *-O0*traps/values)
      "$pm" debug module.wasm core.wasm vars 'print *second' 'print list->next->pair->b[1]' 'print (*list).both.bytes[2]' \
        'print grid[1][2]' 'print *nowhere' > printed
      python3 "$helper" told printed core.wasm || status=1 ;;
    esac
  done
}

# beside COMMAND...: frames beside llvm-symbolizer, and what the commands print beside what the program wrote of its variables.
beside() {
  die 'i32:1234567 i32:77'
  "$pm" debug module.wasm core.wasm bt > printed
  llvm-symbolizer --functions=short --obj=module.wasm < addresses > symbols
  python3 "$helper" frames printed symbols || status=1
  "$pm" debug module.wasm core.wasm "$@" > printed
  python3 "$helper" told printed core.wasm || status=1
}

# objects CLANG FLAGS: structures by value, static members, code points, integers of 16 bytes and namespaces of C++.
objects() {
  echo "clang $1 $2, traps/objects.cc"
  "clang-$1" --target=wasm32 $2 -fno-builtin -fno-exceptions -c -o module.o "$top/bench/programs/traps/objects.cc"
  "wasm-ld-$1" --no-entry -o module.wasm module.o
  beside vars 'print counted.pair.b' 'print counted.kMost' 'print stock' 'print shelves' 'print *nowhere'
}

# statics RUSTC: the same of Rust, with its characters and the statics of its modules.
statics() {
  echo "$("$1" --version), traps/statics.rs"
  "$1" --edition 2021 --target wasm32-unknown-unknown --crate-type cdylib -C panic=abort -C opt-level=0 -g -o module.wasm \
    "$top/bench/programs/traps/statics.rs" 2> warnings
  beside 'print account.balance' 'print account.debt' 'print account.pair' 'print account.initial' 'print account.open' 'print *nowhere' \
    'frame 1' 'print held' 'print letter' 'print debt' 'print most' 'print plain' 'print STOCK' 'print SHELVES'
}

# choices RUSTC: enumerations of Rust with data.
choices() {
  echo "$("$1" --version), traps/choices.rs"
  "$1" --edition 2021 --target wasm32-unknown-unknown --crate-type cdylib -C panic=abort -C opt-level=0 -g -o module.wasm \
    "$top/bench/programs/traps/choices.rs" 2> warnings
  beside 'frame 1' 'print some' 'print none' 'print there' 'print not_there' 'print inner' 'print half' 'print outer' 'print capital' \
    'print no_letter' 'print circle' 'print empty' 'print only' 'print held' 'print good' 'print some.Some.__0' 'print some.None' \
    'print *there.Some.__0' 'print held.shape.Rectangle.height' 'print inner.Some.__0.Some.__0'
}

if command -v clang-14 > /dev/null; then objects 14 '-gdwarf-4 -glldb -O0'; fi
if command -v clang-19 > /dev/null; then objects 19 '-g -O0'; fi
rust=
for name in rustc /usr/bin/rustc; do
  library=$("$name" --print target-libdir --target wasm32-unknown-unknown 2> /dev/null) || continue
  if test -d "$library"; then
    rust=$name
    break
  fi
done
if test -n "$rust"; then
  statics "$rust"
  choices "$rust"
else
  echo 'no rustc has the library of wasm32'
fi

for level in -O0 -O2; do
  if command -v clang-14 > /dev/null; then rows 14 "-gdwarf-4 -glldb $level"; else echo 'clang 14 is missing'; fi
  if command -v clang-19 > /dev/null; then
    rows 19 "-g $level"
    rows 19 "-gdwarf-5 $level"
  else
    echo 'clang 19 is missing'
  fi
done

# timed NAME: `bt` and llvm-symbolizer on the same frames.
timed() {
  echo "$1, $(wc -c < module.wasm) bytes, $(grep -c instance shown) frames"
  for round in 1 2 3; do
    /usr/bin/time -f '  pm debug bt: %e s, %M KiB at most' "$pm" debug module.wasm core.wasm bt > printed
    /usr/bin/time -f '  llvm-symbolizer: %e s, %M KiB at most' llvm-symbolizer --functions=short --obj=module.wasm < addresses > symbols
  done
  python3 "$helper" frames printed symbols || status=1
}

newest=$(command -v clang-19 > /dev/null && echo 19 || echo 14)
make "$newest" '-g -O0' "$top/bench/programs/traps/parser.c"
die 'i32:900 i32:0'
timed 'parser.c on 900 brackets'
# The linker leaves out the functions that are not called, but none of their debugging information.
mkdir made
python3 "$top/bench/make_c.py" 17000 made/large.c
for flags in '-gdwarf-4 -O0' '-gdwarf-5 -O0'; do
  make "$newest" "$flags" made/large.c
  die 'i32:1 i32:2'
  timed "made by make_c.py, $flags"
done
exit "$status"
