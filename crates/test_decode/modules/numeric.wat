;; Every instruction on integers, and constants of every length.
(module
  (func (export "i32_binary") (param i32 i32) (result i32)
    local.get 0 local.get 1 i32.add local.get 1 i32.sub local.get 1 i32.mul local.get 1 i32.div_s local.get 1 i32.div_u
    local.get 1 i32.rem_s local.get 1 i32.rem_u local.get 1 i32.and local.get 1 i32.or local.get 1 i32.xor
    local.get 1 i32.shl local.get 1 i32.shr_s local.get 1 i32.shr_u local.get 1 i32.rotl local.get 1 i32.rotr)
  (func (export "i64_binary") (param i64 i64) (result i64)
    local.get 0 local.get 1 i64.add local.get 1 i64.sub local.get 1 i64.mul local.get 1 i64.div_s local.get 1 i64.div_u
    local.get 1 i64.rem_s local.get 1 i64.rem_u local.get 1 i64.and local.get 1 i64.or local.get 1 i64.xor
    local.get 1 i64.shl local.get 1 i64.shr_s local.get 1 i64.shr_u local.get 1 i64.rotl local.get 1 i64.rotr)
  (func (export "unary") (param i32 i64) (result i64)
    local.get 0 i32.clz i32.ctz i32.popcnt i32.extend8_s i32.extend16_s i32.eqz drop
    local.get 1 i64.clz i64.ctz i64.popcnt i64.extend8_s i64.extend16_s i64.extend32_s i64.eqz i64.extend_i32_u
    i32.wrap_i64 i64.extend_i32_s)
  (func (export "i32_compare") (param i32 i32) (result i32)
    local.get 0 local.get 1 i32.eq local.get 1 i32.ne local.get 1 i32.lt_s local.get 1 i32.lt_u local.get 1 i32.gt_s
    local.get 1 i32.gt_u local.get 1 i32.le_s local.get 1 i32.le_u local.get 1 i32.ge_s local.get 1 i32.ge_u)
  (func (export "i64_compare") (param i64 i64)
    local.get 0 local.get 1 i64.eq drop local.get 0 local.get 1 i64.ne drop local.get 0 local.get 1 i64.lt_s drop
    local.get 0 local.get 1 i64.lt_u drop local.get 0 local.get 1 i64.gt_s drop local.get 0 local.get 1 i64.gt_u drop
    local.get 0 local.get 1 i64.le_s drop local.get 0 local.get 1 i64.le_u drop local.get 0 local.get 1 i64.ge_s drop
    local.get 0 local.get 1 i64.ge_u drop)
  (func (export "constants")
    i32.const 0 drop i32.const 63 drop i32.const 64 drop i32.const -64 drop i32.const -65 drop i32.const 8191 drop
    i32.const 8192 drop i32.const -8193 drop i32.const 1048576 drop i32.const 134217728 drop i32.const -134217729 drop
    i32.const 2147483647 drop i32.const -2147483648 drop
    i64.const 0 drop i64.const -1 drop i64.const 64 drop i64.const 4294967296 drop i64.const -4294967297 drop
    i64.const 1234567890123456789 drop i64.const 9223372036854775807 drop i64.const -9223372036854775808 drop)
)
