; A number that grows by its half, rounded down, and a question: is it ever 5 modulo 7?
(set-logic HORN)
(declare-fun reached (Int) Bool)
(assert (reached 2))

; As a disjunction: a negated body and a head.
(assert (forall ((x Int))
  (or (not (reached x)) (reached (+ x (div x 2))))))

; A query as a negated existential term.
(assert (not (exists ((x Int)) (and (reached x) (= (mod x 7) 5)))))
(check-sat)
