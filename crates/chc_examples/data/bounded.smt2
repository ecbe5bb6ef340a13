; A counter that stops at 10, and a question: does it ever pass 10?
(set-logic HORN)
(declare-fun reached (Int) Bool)
(assert (reached 0))
(assert (forall ((x Int)) (=> (and (reached x) (< x 10)) (reached (+ x 1)))))
(assert (forall ((x Int)) (=> (and (reached x) (> x 10)) false)))
(check-sat)
