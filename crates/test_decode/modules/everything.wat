;; Every section, every kind of import and export that this host has, and segments in number.
(module $everything
  (type $none (func))
  (type $binary (func (param i32 i64) (result i32)))
  (type $input (func (param i32) (result i64)))
  (type $put (func (param i64)))
  (type $emit (func (param i32 i32)))
  (type $answer (func (result i32)))
  (import "host" "input" (func $input (type $input)))
  (import "host" "base" (global $base i32))
  (import "host" "put" (func $put (type $put)))
  (import "host" "emit" (func $emit (type $emit)))
  (import "host" "salt" (global $salt i64))
  (import "other" "na\c3\afve" (func (type $none)))
  (func $first (type $answer) (local i32 i32 i64 i32)
    i32.const 7
    local.set 0
    local.get 0)
  (func $second (type $binary) (param $a i32) (param $b i64) (result i32)
    local.get $a
    local.get $b
    i32.wrap_i64
    i32.add)
  (func $starts (type $none)
    global.get $counter
    i32.const 1
    i32.add
    global.set $counter)
  (table 4 8 funcref)
  (memory 1 16)
  (global $counter (mut i32) (i32.const -5))
  (global $wide i64 (i64.const -9223372036854775808))
  (global $copied i32 (global.get $base))
  (export "first" (func $first))
  (export "second" (func $second))
  (export "table" (table 0))
  (export "memory" (memory 0))
  (export "counter" (global $counter))
  (export "" (func $starts))
  (export "\f0\9f\a6\80" (func $put))
  (start $starts)
  (elem (i32.const 0) $first $second)
  (elem (global.get $base) $starts)
  (data (i32.const 16) "hello" "\00\ff\80")
  (data (i32.const 65536) "")
  (data (global.get $base) "!")
)
