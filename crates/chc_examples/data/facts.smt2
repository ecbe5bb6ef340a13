; A relation of facts: which pairs are reached.
(set-logic HORN)
(declare-fun reached (Int Int) Bool)
(assert (reached 0 0))
(assert (reached 1 0))
(assert (reached 1 2))
(check-sat)
