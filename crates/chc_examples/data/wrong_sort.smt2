; The rule compares a number with a truth value.
(set-logic HORN)
(declare-fun reached (Int Bool) Bool)
(assert (forall ((x Int) (on Bool)) (=> (reached x on) (= x on) (reached (+ x 1) on))))
(check-sat)
