;; A counting loop: 9,999,999 instructions.
(module
  (func (export "invoke") (result i32)
    (local $left i32)
    i32.const 1666666
    local.set $left
    loop
      local.get $left
      i32.const -1
      i32.add
      local.tee $left
      br_if 0
    end
    i32.const 0))
