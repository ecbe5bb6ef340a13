; A lamp is lit by the first press and goes out at the sixth. It is never lit for more than five presses.
(set-logic HORN)
(declare-fun lamp (Bool Int) Bool)
(assert (lamp false 0))
(assert (forall ((n Int)) (=> (lamp false n) (lamp true 1))))
(assert (forall ((n Int)) (=> (and (lamp true n) (< n 5)) (lamp true (+ n 1)))))
(assert (forall ((n Int)) (=> (and (lamp true n) (>= n 5)) (lamp false 0))))
(assert (forall ((lit Bool) (n Int)) (=> (and (lamp lit n) (or (> n 5) (and lit (= n 0)))) false)))
(check-sat)
