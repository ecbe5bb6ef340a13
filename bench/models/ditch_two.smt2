; The same ditch, of two places.
(set-logic HORN)
(declare-fun at (Int) Bool)
(assert (forall ((x Int)) (=> (or (<= x (- 3)) (>= x 7)) (at x))))
(assert (forall ((x Int)) (=> (and (at x) (< x (- 3))) (at (+ x 1)))))
(assert (forall ((x Int)) (=> (and (at x) (> x 7)) (at (- x 1)))))
(assert (forall ((x Int)) (=> (and (at x) (<= 2 x) (<= x 3)) false)))
(check-sat)
