;; A function that stores into its memory and calls another one, which divides; with two globals and a 64-bit local.
(module
  (memory 2)
  (global (mut i32) (i32.const 5))
  (global i64 (i64.const -6))
  (func $divided (param i32 i32) (result i32)
    local.get 0
    local.get 1
    i32.div_s)
  (func (export "run") (param i32 i32) (result i32) (local i64)
    i32.const 65540
    i32.const 0x01020304
    i32.store
    i32.const 200
    global.set 0
    i64.const 9000000000
    local.set 2
    i32.const 77
    local.get 0
    local.get 1
    call $divided
    i32.add))
