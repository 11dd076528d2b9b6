# The native hosts of hosts.sh, which reads this file: wasm2c in each version that is there, the standard C API, and WasmEdge. `hosts` and
# `absent` are the names of those that are installed and those that are not.
hosts= absent=
compiler=${CC:-cc}

# A program that is compiled against what the words behind its name say: whether it can be.
has_library() {
  source=$1
  shift
  "$compiler" -fsyntax-only -I"$top/hosts" "$example/$source" "$@" 2> /dev/null
}

# build_library NAME FLAGS: the example for a library, with the collector.
build_library() {
  name=$1
  shift
  "$compiler" -O2 -Wall -Wextra -I"$top/hosts" -o "./$name" "$example/$name.c" "$example/save.c" "$top/hosts/collector.c" "$@"
}

count=0
for pair in $wasm2c; do
  if command -v "${pair%%=*}" > /dev/null && test -f "${pair#*=}/wasm-rt-impl.c"; then
    count=$((count + 1))
    echo "$pair" > "wasm2c.$count"
    hosts="$hosts wasm2c.$count"
    echo "wasm2c.$count is $("${pair%%=*}" --version)"
  else
    absent="$absent ${pair%%=*}"
  fi
done
if [ -n "${WASM_API:-}" ] && has_library capi.c $WASM_API; then
  build_library capi $WASM_API
  hosts="$hosts capi"
else
  absent="$absent capi"
fi
if has_library wasmedge.c ${WASMEDGE:-}; then
  build_library wasmedge ${WASMEDGE:--lwasmedge}
  hosts="$hosts wasmedge"
else
  absent="$absent wasmedge"
fi

# build_plugin HOST MODULE SOURCE ..: a program that contains a rewritten module, HOST.program; SOURCE .. are what of hosts/ is in it.
build_plugin() {
  host=$1 module=$2
  shift 2
  pair=$(cat "$host")
  runtime=${pair#*=} flags=
  rm -rf "$host.sources"
  mkdir "$host.sources"
  "${pair%%=*}" "$module" -n plugin -o "$host.sources/plugin.c"
  if grep -q Z_plugin_instance_t "$host.sources/plugin.h"; then flags="$flags -DCOREDUMP_OLD_NAMES"; fi
  if ! grep -q "export: 'coredump.memory'" "$host.sources/plugin.h"; then flags="$flags -DPLUGIN_WITHOUT_MEMORY"; fi
  for part in wasm-rt-impl wasm-rt-mem-impl wasm-rt-exceptions-impl; do
    if [ -f "$runtime/$part.c" ]; then set -- "$@" "$runtime/$part.c"; fi
  done
  "$compiler" -w -O1 $flags -I"$host.sources" -I"$top/hosts" -I"$example" -I"$runtime" -o "$host.program" "$host.sources/plugin.c" "$@" -lm
}

# make_native MODULE: the programs that contain it.
make_native() {
  for host in $hosts; do
    case $host in
      wasm2c.*) build_plugin "$host" "$1" "$example/embed.c" "$example/save.c" "$top/hosts/collector.c" ;;
    esac
  done
}

# run_native HOST MODULE DUMP A B
run_native() {
  case $1 in
    wasm2c.*) "./$1.program" "$3" "$4" "$5" ;;
    *) program=$1; shift; "./$program" "$@" ;;
  esac
}

# A start function that traps: only wasm2c leaves the memory to its host then. A disk that is full is told.
start_traps() {
  wat2wasm - -o original.wasm <<'MODULE'
(module
  (memory 1)
  (global $left (mut i32) (i32.const 3))
  (func $begin (local i64)
    i32.const 8 i32.const 77 i32.store
    i64.const -9 local.set 0
    i32.const 1 global.get $left i32.const 3 i32.sub i32.div_s drop)
  (start $begin)
  (func (export "run") (param i32 i32) (result i32) i32.const 1))
MODULE
  "$pm" instrument original.wasm rewritten.wasm > text
  "$pm" run original.wasm run i32:7 i32:0 --dump run.core > text || test $? = 1
  make_native rewritten.wasm
  for host in $hosts; do
    case $host in wasm2c.*) ;; *) continue ;; esac
    run_native "$host" rewritten.wasm host.core 7 0 2> host.said
    cmp run.core host.core
    if run_native "$host" rewritten.wasm /dev/full 7 0 2> host.said; then exit 1; fi
    grep -q 'could not be written' host.said
    echo "a start function, and a full disk: as they should in $host"
  done
}

# stack_end_native MODULE: a program that contains it, up to the end of its own stack.
stack_end_native() {
  for host in $hosts; do
    case $host in wasm2c.*) ;; *) continue ;; esac
    build_plugin "$host" "$1" "$top/bench/stack_end.c" "$top/hosts/collector.c"
    echo "$host: $("./$host.program")"
  done
}
