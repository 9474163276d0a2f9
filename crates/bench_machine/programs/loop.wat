;; A tight loop: an exclusive or and a sum, nothing of memory.
(module
  (func (export "run") (result i32) (local $i i32) (local $x i32)
    loop
      local.get $x local.get $i i32.xor local.get $i i32.add local.set $x
      local.get $i i32.const 1 i32.add local.tee $i i32.const TIMES i32.ne br_if 0
    end
    local.get $x))
