;; It returns the first four bytes of its memory.
(module
  (memory 1)
  (func (export "first") (result i32)
    (i32.load (i32.const 0)))
  (data (i32.const 0) "note"))
