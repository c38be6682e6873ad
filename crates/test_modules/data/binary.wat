(module)

(module (func (export "main")))

(module (func  ))

(module (func (local i32 i32 i32) ))

(module (func (local i64 i32 i32) (local i64 i64 i64 i64 i64 i64 i64 i64 i64 i64 i64 i64 i64 i64 i64 i64 i64 i64 i64 i64 i64 i64 i64 i64 i64 i64 i64 i64 i64 i64 i64 i64 i64 i64 i64 i64 i64 i64 i64 i64 i64 i64 i64 i64 i64 i64 i64 i64 i64 i64 i64 i64 i64 i64 i64 i64 i64 i64 i64 i64 i64 i64 i64 i64 i64 i64 i64 i64 i64 i64 i64 i64 i64 i64 i64 i64 i64 i64 i64 i64 i64 i64 i64 i64 i64 i64 i64 i64 i64 i64 i64 i64 i64 i64 i64 i64 i64 i64 i64 i64 i64 i64 i64 i64 i64 i64 i64 i64 i64 i64 i64 i64 i64 i64 i64 i64 i64 i64 i64 i64 i64 i64 i64 i64 i64 i64 i64 i64 i64 i64 i64 i64 i64 i64 i64 i64 i64 i64 i64 i64 i64 i64 i64 i64 i64 i64 i64 i64 i64 i64 i64 i64 i64 i64 i64 i64 i64 i64 i64 i64 i64 i64 i64 i64 i64 i64 i64 i64 i64 i64 i64 i64 i64 i64 i64 i64 i64 i64 i64 i64 i64 i64 i64 i64 i64 i64 i64 i64 i64 i64 i64 i64 i64 i64 i64 i64 i64 i64 i64 i64 ) ))

(module (func  (if (i32.const 1) (then (nop)))))

(module (func  (if (i32.const 1) (then) (else (nop)))))

(module (func  (if (i32.const 1) (then (nop)) (else (nop)))))

(module (func  (block (block (block (block (block (block (block (block (block (block (block (block (block (block (block (block (block (block (block (block (block (block (block (block (block (block (block (block (block (block (block (block (block (block (block (block (block (block (block (block (block (block (block (block (block (block (block (block (block (block (block (block (block (block (block (block (block (block (block (block (block (block (block (block (block (block (block (block (block (block (block (block (block (block (block (block (block (block (block (block (block (block (block (block (block (block (block (block (block (block (block (block (block (block (block (block (block (block (block (block (block (block (block (block (block (block (block (block (block (block (block (block (block (block (block (block (block (block (block (block (block (block (block (block (block (block (block (block (block (block (block (block (block (block (block (block (block (block (block (block (block (block (block (block (block (block (block (block (block (block (block (block (block (block (block (block (block (block (block (block (block (block (block (block (block (block (block (block (block (block (block (block (block (block (block (block (block (block (block (block (block (block (block (block (block (block (block (block (block (block (block (block (block (block (block (block (block (block (block (block (block (block (block (block (block (block (block (block (block (block (block (block (block (block (block (block (block (block (block (block (block (block (block (block (block (block (block (block (block (block (block (block (block (block (block (block (block (block (block (block (block (block (block (block (block (block (block (block (block (block (block (block (block (block (block (block (block (block (block (block (block (block (block (block (block (block (block (block (block (block (block (block (block (block (block (block (block (block (block (block (block (block (block (block (block (block (block (block (block (block (block (block (block (block (block (block (block (block (block (block nop))))))))))))))))))))))))))))))))))))))))))))))))))))))))))))))))))))))))))))))))))))))))))))))))))))))))))))))))))))))))))))))))))))))))))))))))))))))))))))))))))))))))))))))))))))))))))))))))))))))))))))))))))))))))))))))))))))))))))))))))))))))))))))))))))))))))))))))))))))))))))))))))))))))))))))))

(module
  (type (func (param i32 i64) (result i32)))
  (type (func))
  (import "env" "f" (func (type 0)))
  (import "env" "t" (table 1 300 funcref))
  (import "env" "g" (global i32))
  (func (type 1) (local i32 i32 i64)
    (block (loop (br_if 1 (local.get 0)) (br 0)))
    (block (block (br_table 0 1 0 (local.tee 1 (i32.const -1)))))
    (drop (call_indirect (type 0) (i32.const 128) (i64.const -9223372036854775808) (i32.const 0)))
    (drop (block (result i64) (i64.load offset=624485 align=4 (memory.size))))
    (drop (memory.grow (i32.const 0)))
    (global.set 1 (i64.extend_i32_u (global.get 0)))
    (drop (call 0 (i32.const 1) (i64.const 64)))
    (local.set 0 (i32.eqz (i32.const 2147483647)))
    (return))
  (memory 1)
  (global (mut i64) (i64.const 5))
  (global i32 (global.get 0))
  (export "memory" (memory 0))
  (export "t" (table 0))
  (export "g" (global 0))
  (export "main" (func 1))
  (start 1)
  (elem (global.get 0) 1 0)
  (data (i32.const 65535) "ab"))
