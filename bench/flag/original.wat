;; Functions that a host calls by an exported table, and one that calls the host, which may call back. hosts_flag.sh runs it.
(module
  (type $binary (func (param i32 i32) (result i32)))
  (import "env" "back" (func $back))
  (memory (export "memory") 1)
  (table (export "table") 2 funcref)
  (elem (i32.const 0) $plain $divides)
  (func $three (result i32) i32.const 3)
  (func $plain (result i32)
    i32.const 8
    call $three
    i32.store
    i32.const 8
    i32.load)
  (func $divides (type $binary)
    local.get 0
    local.get 1
    i32.div_s)
  (func (export "run") (type $binary)
    local.get 0
    local.get 1
    call $divides)
  (func (export "asks") (result i32)
    call $back
    call $three)
  (func (export "through") (param i32 i32 i32) (result i32)
    local.get 1
    local.get 2
    local.get 0
    call_indirect (type $binary)))
