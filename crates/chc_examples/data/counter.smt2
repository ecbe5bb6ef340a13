; A counter that starts at 0 and is stepped while it is below 10.
(set-logic HORN)
(declare-fun reached (Int) Bool)

; It starts at 0.
(assert (reached 0))

; A step adds 1.
(assert (forall ((x Int)) (=> (and (reached x) (< x 10)) (reached (+ x 1)))))

(check-sat)
