; Numbers that are nearly too large: a counter that starts at 2^63 - 4 and stops at 2^63 - 2.
(set-logic HORN)
(declare-fun far (Int) Bool)
(assert (far 9223372036854775804))
(assert (forall ((n Int)) (=> (and (far n) (< n 9223372036854775806)) (far (+ n 1)))))
(assert (forall ((n Int)) (=> (far n) (<= n 9223372036854775806))))
(check-sat)
