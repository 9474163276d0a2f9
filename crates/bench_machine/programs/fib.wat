;; Fibonacci numbers by two calls each.
(module
  (func $fib (param $n i32) (result i32)
    local.get $n i32.const 2 i32.lt_s
    if (result i32)
      local.get $n
    else
      local.get $n i32.const 1 i32.sub call $fib
      local.get $n i32.const 2 i32.sub call $fib
      i32.add
    end)
  (func (export "run") (result i32) i32.const TIMES call $fib))
