;; Both exports count $left down to zero by tail calls, and return the number of iterations. `count` uses a function that calls itself, and
;; `count_through` uses one that calls itself through an entry of a table.
(module
  (type $counts (func (param i32 i32) (result i32)))
  (table 1 funcref)
  (elem (i32.const 0) $around_through)
  (func (export "count") (param $left i32) (result i32)
    local.get $left
    i32.const 0
    return_call $around)
  (func (export "count_through") (param $left i32) (result i32)
    local.get $left
    i32.const 0
    return_call $around_through)
  (func $around (type $counts) (param $left i32) (param $rounds i32) (result i32)
    local.get $left
    if
      local.get $left
      i32.const 1
      i32.sub
      local.get $rounds
      i32.const 1
      i32.add
      return_call $around
    end
    local.get $rounds)
  (func $around_through (type $counts) (param $left i32) (param $rounds i32) (result i32)
    local.get $left
    if
      local.get $left
      i32.const 1
      i32.sub
      local.get $rounds
      i32.const 1
      i32.add
      i32.const 0
      return_call_indirect (type $counts)
    end
    local.get $rounds))
