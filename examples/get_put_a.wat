;; Reads the key `a`, puts it with the value `1`, and answers 0.
(module
  (import "fabric" "get_state" (func $get_state (param i32 i32 i32 i32) (result i32)))
  (import "fabric" "put_state" (func $put_state (param i32 i32 i32 i32) (result i32)))
  (func $invoke (export "invoke") (result i32)
    i32.const 0   ;; where the key lies
    i32.const 1   ;; its length
    i32.const 2   ;; where the value would be written
    i32.const 0   ;; but there is no room, so only its length is answered
    call $get_state
    drop
    i32.const 0   ;; where the key lies
    i32.const 1   ;; its length
    i32.const 1   ;; where the value lies
    i32.const 1   ;; its length
    call $put_state
    drop
    i32.const 0)
  (memory 1)
  (data (i32.const 0) "a1"))
