; The counter of counter.smt2, without a bound on its steps, and a question: is 3 never reached?
(set-logic HORN)
(declare-fun reached (Int) Bool)
(assert (reached 0))
(assert (forall ((x Int)) (=> (reached x) (reached (+ x 1)))))

; A clause without a head.
(assert (not (reached 3)))
(check-sat)
