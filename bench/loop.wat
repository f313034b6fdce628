;; The count-down loop, 5,000,000 times round.
(module
  (func (export "loop") (result i32)
    (local $n i32) (local $a i32)
    (local.set $n (i32.const 5000000))
    (loop $again
      (local.set $a (i32.add (local.get $a) (i32.const 1)))
      (local.set $n (i32.sub (local.get $n) (i32.const 1)))
      (br_if $again (local.get $n)))
    (local.get $a)))
