#!/bin/sh
# Whether the hosts of hosts/ write, byte for byte, the dump that `pm run` writes of the original module: of an example that was rewritten by
# hand, of small modules, and of C programs that clang makes and `pm instrument` rewrites, plain and optimized, each of which traps in
# another way; and all of them again behind `wasm-opt -O2`. Needs wabt, clang with lld, and binaryen. It runs each host that is installed, and
# names those that are not:
#
#   node, gjs, jsc    JavaScript: V8, SpiderMonkey and JavaScriptCore
#   chromium          the page of hosts/page, by node and CHROMIUM (else chromium-headless-shell or chromium)
#   firefox           the same page, by node from version 20.10 on and FIREFOX (else firefox-esr or firefox)
#   wasm2c            WASM2C is a list of PROGRAM=SOURCES, the sources of its runtime, and else wasm2c=/usr/src/wasm2c, as in Debian
#   capi              a standard C API; WASM_API has what a C compiler has to be told for wasm.h and an engine. Over wabt 1.0.32, whose form
#                     of it is older, -I bench/older_wasm_api comes first
#   wasmedge          the C API of WasmEdge; WASMEDGE has what a C compiler has to be told, and else -lwasmedge
#
# PM is the program, and else ./pm.
set -eu
top=$(cd "$(dirname "$0")/.." && pwd)
pm=${PM:-$("$top/tools/program")}
example=$top/hosts/example
wasm2c=${WASM2C:-wasm2c=/usr/src/wasm2c}
chromium=${CHROMIUM:-$(command -v chromium-headless-shell || command -v chromium || true)}
firefox=${FIREFOX:-$(command -v firefox-esr || command -v firefox || true)}
work=$(mktemp -d)
trap 'rm -rf "$work"' EXIT
cd "$work"
mkdir cases

. "$top/bench/hosts_native.sh"
. "$top/bench/hosts_record.sh"
. "$top/bench/hosts_package.sh"

shells=
for shell in node gjs jsc; do
  if command -v $shell > /dev/null; then shells="$shells $shell"; else absent="$absent $shell"; fi
done
hosts="$hosts$shells"

# run_shell SHELL SCRIPT WORD ..
run_shell() {
  shell=$1 script=$2
  shift 2
  case $shell in
    node) node "$script" "$@" ;;
    gjs) gjs -m "$script" "$@" ;;
    jsc) jsc -m "$script" -- "$@" ;;
  esac
}

# run_host HOST MODULE DUMP A B: the export `run` of a rewritten module, which traps.
run_host() {
  case $1 in
    node) shift; node "$example/embed.mjs" "$@" ;;
    gjs | jsc) shell=$1; shift; run_shell "$shell" "$example/shell.mjs" "$@" ;;
    *) run_native "$@" ;;
  esac
}

# try_all MODULE A B: all hosts, on a rewritten module.
try_all() {
  make_native "$1"
  for host in $hosts; do
    rm -f host.core
    run_host "$host" "$1" host.core "$2" "$3" 2> host.said || { cat host.said; echo "$host gives no dump"; exit 1; }
    cmp run.core host.core
  done
}

# compare NAME ORIGINAL REWRITTEN A B: `run` on A and B, which traps; and the same of the optimized module.
compare() {
  status=0
  "$pm" run "$2" run "i32:$4" "i32:$5" --dump run.core > text || status=$?
  test $status = 1
  try_all "$3" "$4" "$5"
  wasm-opt -O2 --enable-sign-ext --enable-bulk-memory "$3" -o optimized.wasm
  try_all optimized.wasm "$4" "$5"
  case=cases/$(ls cases | wc -l)
  mkdir "$case"
  cp run.core "$case"
  cp optimized.wasm "$case/rewritten.wasm"
  echo "$4 $5" > "$case/words"
  "$pm" show run.core > "$case/shown"
  echo "$1: $(head -n 1 text), $(wc -c < run.core) bytes"
}

# written NAME: a module in text form, from the standard input, and what it is rewritten to; the two arguments are 7 and 0.
written() {
  wat2wasm - -o original.wasm
  "$pm" instrument original.wasm rewritten.wasm > text
  compare "$1" original.wasm rewritten.wasm 7 0
}

# try_collector: the collectors by themselves, at the end of an engine's stack, and on random calls.
try_collector() {
  wat2wasm "$example/original.wat" -o original.wasm
  wat2wasm "$example/rewritten.wat" -o rewritten.wasm
  name='né €😀'
  "$pm" run original.wasm run i32:7 i32:0 + run i32:9 i32:0 --dump run.core --name "$name" > text || test $? = 1
  for shell in $shells; do run_shell $shell "$top/bench/collector_cases.mjs" rewritten.wasm run.core.1 "$name"; done
  wat2wasm - -o deep.wasm <<'MODULE'
(module (func $run (export "run") (param i32 i32) (result i32) (local i64)
  local.get 0
  i32.eqz
  if
    i32.const 77 local.get 0 local.get 1 i32.div_s return
  end
  i32.const 5 local.get 0 i32.const 1 i32.sub local.get 1 call $run i32.add))
MODULE
  "$pm" instrument deep.wasm rewritten.wasm > text
  export JSC_maxPerThreadStackUsage=400000 # of its own accord JavaScriptCore goes so deep that the runs take minutes
  for shell in $shells; do run_shell $shell "$top/bench/stack_end.mjs" rewritten.wasm; done
  stack_end_native rewritten.wasm
  command -v node > /dev/null || return 0
  node "$top/bench/far_page.mjs" far.core
  wasm-validate far.core
  node "$top/bench/random_calls.mjs" "$pm" 10000 200
}

wat2wasm "$example/original.wat" -o original.wasm
wat2wasm "$example/rewritten.wat" -o rewritten.wasm
compare 'by hand' original.wasm rewritten.wasm 7 0
written 'without a memory' <<'MODULE'
(module (func (export "run") (param i32 i32) (result i32) local.get 0 local.get 1 i32.div_u))
MODULE
for row in 'tree 7 0' 'parser 50 0' 'states 2 0' 'states 3 0' 'states 4 0' 'states 5 0' 'states 6 0'; do
  set -- $row
  for level in 0 2; do
    clang --target=wasm32 -O$level -fno-builtin -nostdlib -Wl,--no-entry -o original.wasm "$top/bench/programs/traps/$1.c"
    "$pm" instrument original.wasm rewritten.wasm > text
    compare "$1.c -O$level on $2 $3" original.wasm rewritten.wasm "$2" "$3"
  done
done
echo "the same in:$hosts"
start_traps
try_collector
record_contract
if command -v cmake > /dev/null; then try_cmake; else absent="$absent cmake"; fi
if command -v tsc > /dev/null; then try_types; else absent="$absent tsc"; fi
if command -v node > /dev/null; then
  record_ends
  if [ -f /usr/lib/wasm32-wasi/libc-printscan-no-floating-point.a ]; then record_wasi; else absent="$absent wasi-libc"; fi
fi
if [ -n "$chromium" ] && command -v node > /dev/null; then node "$top/bench/page.mjs" "$chromium" cases; else absent="$absent chromium"; fi
if [ -n "$firefox" ] && command -v node > /dev/null; then
  node --experimental-websocket "$top/bench/page_firefox.mjs" "$firefox" cases
else
  absent="$absent firefox"
fi
wat2wasm "$top/bench/grown.wat" -o original.wasm
"$pm" instrument original.wasm rewritten.wasm > text
for shell in $shells; do run_shell $shell "$top/bench/grown.mjs" original.wasm rewritten.wasm; done
PM=$pm sh "$top/bench/hosts_flag.sh"
PM=$pm sh "$top/bench/hosts_flag.sh" instrument
echo "not installed:${absent:- none}"
