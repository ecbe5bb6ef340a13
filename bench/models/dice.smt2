; A number grows by 3 times another one. It begins with a number of which the remainder by 3 is 1, and it is never
; twice a number that is divisible by 3.
(set-logic HORN)
(declare-fun grows (Int) Bool)
(assert (forall ((n Int)) (=> (= (mod n 3) 1) (grows n))))
(assert (forall ((n Int) (by Int)) (=> (and (grows n) (> by 0)) (grows (+ n (* 3 by))))))
(assert (forall ((n Int)) (=> (and (grows n) (= (mod (div n 2) 3) 0)) (= (mod n 2) 1))))
(check-sat)
