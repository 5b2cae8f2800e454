;; A contract: functions of which each has its price.
(module
  (memory 1 2)
  (func (export "add") (param i32 i32) (result i32) local.get 0 local.get 1 i32.add)
  (func (export "divide") (param i32 i32) (result i32) local.get 0 local.get 1 i32.div_u)
  (func (export "fill") (param i32) i32.const 0 i32.const 7 local.get 0 memory.fill)
  (func (export "copy") (param i32) i32.const 0 i32.const 1 local.get 0 memory.copy)
  (func (export "grow") (param i32) (result i32) local.get 0 memory.grow)
  (func (export "loop") loop br 0 end)
  (func $call_itself (export "call_itself") call $call_itself))
