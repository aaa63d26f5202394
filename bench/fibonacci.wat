;; The 28th Fibonacci number by plain recursion from a call by the table: status 0 if it is 317,811.
(module
  (type $number (func (param i32) (result i32)))
  (table 1 1 funcref)
  (elem (i32.const 0) $fibonacci)
  (func $fibonacci (type $number)
    (if (result i32) (i32.lt_u (local.get 0) (i32.const 2))
      (then (local.get 0))
      (else
        (i32.add
          (call $fibonacci (i32.sub (local.get 0) (i32.const 1)))
          (call $fibonacci (i32.sub (local.get 0) (i32.const 2)))))))
  (func (export "invoke") (result i32)
    (i32.ne
      (call_indirect (type $number) (i32.const 28) (i32.const 0))
      (i32.const 317811))))
