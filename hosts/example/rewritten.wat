;; original.wat as a rewriting of it may look, made by hand: it hands over what a dump says at a trap of the division.
(module
  (import "coredump" "value_i32" (func $value_i32 (param i32)))
  (import "coredump" "value_i64" (func $value_i64 (param i64)))
  (import "coredump" "frame" (func $frame (param i32 i32 i32 i32)))
  (memory (export "coredump.memory") 2)
  (global $first (mut i32) (i32.const 5))
  (global $second i64 (i64.const -6))
  (global $up (mut i32) (i32.const 0))
  (func $divided (param i32 i32) (result i32)
    local.get 1
    i32.eqz
    if
      local.get 0 call $value_i32 local.get 1 call $value_i32
      local.get 0 call $value_i32 local.get 1 call $value_i32
      i32.const 2 i32.const 0 i32.const 5 i32.const 2 call $frame
      i32.const 1 global.set $up
      i32.const 0 return
    end
    local.get 0 local.get 1 i32.div_s)
  (func $run (param i32 i32) (result i32) (local i64 i32)
    i32.const 65540 i32.const 0x01020304 i32.store
    i32.const 200 global.set $first
    i64.const 9000000000 local.set 2
    local.get 0 local.get 1 call $divided local.set 3
    global.get $up
    if
      i32.const 77 call $value_i32
      local.get 0 call $value_i32 local.get 1 call $value_i32 local.get 2 call $value_i64
      i32.const 0 i32.const 1 i32.const 35 i32.const 3 call $frame
      i32.const 0 return
    end
    i32.const 77 local.get 3 i32.add)
  (func (export "run") (param i32 i32) (result i32) (local i32)
    i32.const 0 global.set $up
    local.get 0 local.get 1 call $run local.set 2
    global.get $up
    if
      global.get $first call $value_i32 global.get $second call $value_i64
      i32.const 255 i32.const 0 i32.const 0 i32.const 2 call $frame
      unreachable
    end
    local.get 2))
