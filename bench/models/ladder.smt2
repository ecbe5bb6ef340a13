; A procedure that calls itself on one less, and adds one or two to what it is given back. It gives back at
; least its argument.
(set-logic HORN)
(declare-fun climbs (Int Int) Bool)
(assert (forall ((n Int)) (=> (<= n 0) (climbs n 0))))
(assert (forall ((n Int) (r Int) (more Bool)) (=> (and (> n 0) (climbs (- n 1) r)) (climbs n (+ r (ite more 1 2))))))
(assert (forall ((n Int) (r Int)) (=> (climbs n r) (>= r n))))
(check-sat)
