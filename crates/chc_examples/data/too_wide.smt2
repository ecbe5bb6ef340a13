; Each numeral is below 2^63, and so is each sum of the numbers alone. But the difference of the two sides
; below is x times 9223372036854775808, and that is 2^63.
(set-logic HORN)
(declare-fun reached (Int) Bool)
(assert (forall ((x Int))
  (=> (<= (* 9223372036854775807 x) (- x)) (reached x))))
(check-sat)
