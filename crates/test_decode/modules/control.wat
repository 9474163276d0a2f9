;; Every instruction of control, and blocks in blocks.
(module
  (type $t (func (param i32) (result i32)))
  (table 2 funcref)
  (global $g (mut i64) (i64.const 0))
  (func $empty)
  (func $choose (type $t)
    (block (block (block (block
      local.get 0
      br_table 0 1 2 1 3)
      i32.const 10 return)
      i32.const 20 return)
      i32.const 30 return)
    i32.const 40)
  (func $only_default (type $t)
    (block local.get 0 br_table 0)
    i32.const 1)
  (func $loops (type $t) (local i32)
    (loop $again
      local.get 1
      local.get 0
      i32.add
      local.set 1
      local.get 0
      i32.const -1
      i32.add
      local.tee 0
      br_if $again)
    local.get 1)
  (func $ifs (param i32) (result i64)
    local.get 0
    if (result i64)
      local.get 0
      if
        nop
      end
      i64.const 1
    else
      local.get 0
      i32.eqz
      if
        call $empty
      else
        unreachable
      end
      i64.const 2
    end
    global.set $g
    global.get $g
    i64.const 3
    local.get 0
    select)
  (func $calls (type $t)
    local.get 0
    i32.const 1
    call_indirect (type $t)
    (block (result i32) i32.const 9)
    drop
    (loop (result i32) i32.const 8)
    i32.add
    (block br 0 (block (loop (if (i32.const 1) (then (block))))))
    call $choose)
  (elem (i32.const 0) $choose $loops)
)
