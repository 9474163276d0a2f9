;; Every load and store, with alignments and offsets.
(module
  (memory 1)
  (func (export "loads") (param i32)
    local.get 0 i32.load drop local.get 0 i64.load drop
    local.get 0 i32.load8_s drop local.get 0 i32.load8_u drop local.get 0 i32.load16_s drop local.get 0 i32.load16_u drop
    local.get 0 i64.load8_s drop local.get 0 i64.load8_u drop local.get 0 i64.load16_s drop local.get 0 i64.load16_u drop
    local.get 0 i64.load32_s drop local.get 0 i64.load32_u drop
    local.get 0 i32.load align=1 drop local.get 0 i32.load offset=127 align=2 drop
    local.get 0 i64.load offset=128 align=4 drop local.get 0 i64.load offset=4294967295 drop
    local.get 0 i64.load32_u offset=65536 align=1 drop)
  (func (export "stores") (param i32 i64)
    local.get 0 local.get 0 i32.store local.get 0 local.get 1 i64.store
    local.get 0 local.get 0 i32.store8 local.get 0 local.get 0 i32.store16
    local.get 0 local.get 1 i64.store8 local.get 0 local.get 1 i64.store16 local.get 0 local.get 1 i64.store32
    local.get 0 local.get 1 i64.store offset=4096 align=1 local.get 0 local.get 0 i32.store16 offset=3 align=1)
  (func (export "pages") (result i32)
    i32.const 1 memory.grow drop memory.size)
)
