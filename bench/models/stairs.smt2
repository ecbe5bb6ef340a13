; Stairs are climbed by two or by four at a time. No odd step is met.
(set-logic HORN)
(declare-fun step (Int) Bool)
(assert (step 0))
(assert (forall ((n Int)) (=> (step n) (step (+ n 2)))))
(assert (forall ((n Int)) (=> (step n) (step (+ n 4)))))
(assert (forall ((n Int)) (=> (step n) (not (= (mod n 2) 1)))))
(check-sat)
