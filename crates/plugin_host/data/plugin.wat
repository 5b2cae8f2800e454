;; A plug-in: it greets, divides, writes from outside of its memory, and does not come to an end.
(module
  (import "host" "count" (func $count (result i32)))
  (import "host" "write" (func $write (param i32 i32)))
  (memory 1)
  (data (i32.const 8) "hello ")
  (func (export "greet") (result i32) i32.const 8 i32.const 6 call $write call $count)
  (func (export "divide") (param i32 i32) (result i32) local.get 0 local.get 1 i32.div_u)
  (func (export "write_outside") i32.const 65530 i32.const 7 call $write)
  (func (export "spin") (loop br 0)))
