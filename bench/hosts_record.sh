# The recorders, of hosts.sh, which reads this file: what a host replied to a rewritten module, and `pm` on the original with these replies.

# replies_same NAME: the record in NAME is that in `replies`, and the dump in NAME.core that in `run.core`.
replies_same() {
  cmp replies "$1"
  cmp run.core "$1.core"
}

# A contract whose books its host keeps: in node, and around what each wasm2c made of it. All write the same record; with it `pm run` ends
# the same invocations alike, with the same dump, and `pm replay` meets the trap.
record_contract() {
  pairs='1,100 1,7 3,5 2,9'
  clang --target=wasm32 -O1 -fno-builtin -nostdlib -Wl,--no-entry -o original.wasm "$top/bench/programs/contract.c"
  "$pm" instrument original.wasm rewritten.wasm > text
  recorded=
  if command -v node > /dev/null; then
    node "$top/bench/record_contract.mjs" rewritten.wasm node.replies node.replies.core $pairs > node.said
    recorded="$recorded node"
  fi
  for host in $hosts; do
    case $host in wasm2c.*) ;; *) continue ;; esac
    build_plugin "$host" rewritten.wasm "$top/bench/record_contract.c" "$example/save.c" "$top/hosts/collector.c" "$top/hosts/record.c"
    "./$host.program" "$host.replies" "$host.replies.core" $pairs > "$host.said"
    recorded="$recorded $host"
  done
  for host in $recorded; do
    cp "$host.replies" replies
    "$pm" run original.wasm --replies replies --dump run.core \
      run i32:1 i32:100 + run i32:1 i32:7 + run i32:3 i32:5 + run i32:2 i32:9 > text || test $? = 1
    grep -E '^(finished|trap)' text | sed 's/^\(trap .\).*/\1/' > ended
    cmp ended "$host.said"
  done
  for host in $recorded; do replies_same "$host.replies"; done
  tail -n 3 replies > last
  "$pm" replay original.wasm last run i32:2 i32:9 --do 'goto 1000000' > text
  grep -q 'trap 2 integer divide by zero$' text
  echo "contract.c: $(grep -c . replies) replies, the same in:$recorded; and $(cat text)"
}

# A program of wasi-libc in node, which ends, and which traps.
record_wasi() {
  clang --target=wasm32-wasi -O1 -o original.wasm "$top/bench/programs/report.c" -lc-printscan-no-floating-point
  "$pm" instrument original.wasm rewritten.wasm > text
  printf '12\n30\n7\n' > numbers
  node --no-warnings "$example/record.mjs" rewritten.wasm replies host.core 2 7 < numbers > said
  "$pm" run original.wasm _start --replies replies > text
  test "$(head -n 1 text)" = finished
  node --no-warnings "$example/record.mjs" rewritten.wasm replies host.core 2 0 < numbers > said
  "$pm" run original.wasm _start --replies replies --dump run.core > text || test $? = 1
  cmp run.core host.core
  echo "report.c of wasi-libc: $(head -n 1 text), $(grep -c . replies) replies, the same dump"
}

# What no reply can be ends a record, and the run with it.
record_ends() {
  wat2wasm - -o original.wasm <<'MODULE'
(module
  (import "env" "ask" (func $ask (result i32)))
  (memory (export "memory") 1 3)
  (func (export "other") (result i32) i32.const 9)
  (func (export "run") (result i32) call $ask call $ask i32.add))
MODULE
  mkdir -p ends
  node "$top/bench/record_ends.mjs" original.wasm ends
  "$compiler" -O1 -I"$top/hosts" -o record_ends "$top/bench/record_ends.c" "$top/hosts/record.c"
  ./record_ends ends
  cmp ends/fits ends/c.fits
  for way in throws grows calls c.traps c.grows c.calls c.lends_more; do
    "$pm" run original.wasm run --replies "ends/$way" > text || test $? = 9
    test "$(cat text)" = 'host stopped: no reply for call 1'
    echo "a host that $way: $(tail -n 1 "ends/$way")"
  done
  test "$(cat ends/fits)" = "$(printf 'i32:5\ni32:-1 65533=01 65535=02')"
  "$pm" run original.wasm run --replies ends/fits > text
  test "$(head -n 1 text)" = 'finished i32:4'
}
