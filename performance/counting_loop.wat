;; Counts $left down to zero, and returns the number of iterations. $left must begin above zero.
(module
  (func (export "count") (param $left i32) (result i32) (local $rounds i32)
    loop $again
      local.get $rounds
      i32.const 1
      i32.add
      local.set $rounds
      local.get $left
      i32.const 1
      i32.sub
      local.tee $left
      br_if $again
    end
    local.get $rounds))
