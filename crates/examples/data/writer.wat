;; It fills its memory, and returns the first four bytes of it.
(module
  (memory 1)
  (func (export "fill")
    (memory.fill (i32.const 0) (i32.const 255) (i32.const 65536)))
  (func (export "first") (result i32)
    (i32.load (i32.const 0))))
