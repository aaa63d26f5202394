;; A recursive function that calls itself twice at each level, from two heights: 9,175,025 instructions.
(module
  (func $leaves (param $height i32) (result i32)
    local.get $height
    if (result i32)
      local.get $height
      i32.const -1
      i32.add
      call $leaves
      local.get $height
      i32.const -1
      i32.add
      call $leaves
      i32.add
    else
      i32.const 1
    end)
  (func (export "invoke") (result i32)
    i32.const 19
    call $leaves
    i32.const 17
    call $leaves
    i32.add
    drop
    i32.const 0))
