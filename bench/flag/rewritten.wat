;; original.wat as a rewriting of it may look, made by hand: each wrapper lowers the flag in front of `unreachable` too, and the written table
;; has a wrapper for each function in front, which hosts see, and the functions themselves behind.
(module
  (type $binary (func (param i32 i32) (result i32)))
  (import "env" "back" (func $back))
  (import "coredump" "value_i32" (func $value (param i32)))
  (import "coredump" "value_i64" (func $value_i64 (param i64)))
  (import "coredump" "frame" (func $frame (param i32 i32 i32 i32)))
  (memory (export "memory") 1)
  (export "coredump.memory" (memory 0))
  (table (export "table") 4 funcref)
  (elem (i32.const 0) $plain_entry $divides_entry $plain $divides)
  (global $up (mut i32) (i32.const 0))

  (func $three (result i32) i32.const 3)
  (func $plain (result i32) (local i32)
    call $three local.set 0
    global.get $up
    if
      i32.const 8 call $value
      i32.const 0 i32.const 2 i32.const 3 i32.const 0 call $frame
      i32.const 0 return
    end
    i32.const 8 local.get 0 i32.store
    i32.const 8 i32.load)
  (func $divides (type $binary)
    local.get 1 i32.eqz
    if
      local.get 0 call $value local.get 1 call $value local.get 0 call $value local.get 1 call $value
      i32.const 2 i32.const 3 i32.const 5 i32.const 2 call $frame
      i32.const 1 global.set $up
      i32.const 0 return
    end
    local.get 0 local.get 1 i32.div_s)
  (func $run (type $binary) (local i32)
    local.get 0 local.get 1 call $divides local.set 2
    global.get $up
    if
      local.get 0 call $value local.get 1 call $value
      i32.const 0 i32.const 4 i32.const 5 i32.const 2 call $frame
      i32.const 0 return
    end
    local.get 2)
  (func $asks (result i32) (local i32)
    call $back
    call $three local.set 0
    global.get $up
    if
      i32.const 0 i32.const 5 i32.const 3 i32.const 0 call $frame
      i32.const 0 return
    end
    local.get 0)
  (func $through (param i32 i32 i32) (result i32) (local i32)
    local.get 0 i32.const 2 i32.ge_u
    if i32.const 5 local.set 3 else local.get 0 i32.eqz if i32.const 7 local.set 3 end end
    local.get 3
    if
      local.get 1 call $value local.get 2 call $value local.get 0 call $value
      local.get 0 call $value local.get 1 call $value local.get 2 call $value
      local.get 3 i32.const 6 i32.const 7 i32.const 3 call $frame
      i32.const 1 global.set $up
      i32.const 0 return
    end
    local.get 1 local.get 2 local.get 0 i32.const 2 i32.add call_indirect (type $binary) local.set 3
    global.get $up
    if
      local.get 0 call $value local.get 1 call $value local.get 2 call $value
      i32.const 0 i32.const 6 i32.const 7 i32.const 3 call $frame
      i32.const 0 return
    end
    local.get 3)

  (func $close
    global.get $up
    if
      i32.const 255 i32.const 0 i32.const 0 i32.const 0 call $frame
      i32.const 0 global.set $up
      unreachable
    end)
  (func $plain_entry (result i32) i32.const 0 global.set $up call $plain call $close)
  (func $divides_entry (type $binary) i32.const 0 global.set $up local.get 0 local.get 1 call $divides call $close)
  (func (export "run") (type $binary) i32.const 0 global.set $up local.get 0 local.get 1 call $run call $close)
  (func (export "asks") (result i32) i32.const 0 global.set $up call $asks call $close)
  (func (export "through") (param i32 i32 i32) (result i32)
    i32.const 0 global.set $up local.get 0 local.get 1 local.get 2 call $through call $close))
