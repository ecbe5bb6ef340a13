(set-logic HORN)
(declare-fun reached (Int) Bool)
(assert (reached 0))
