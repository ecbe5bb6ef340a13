; Two lights at a bridge of which one at most is green.
(set-logic HORN)
(declare-fun lights (Bool Bool Int) Bool)
(assert (lights false false 0))
(assert (forall ((a Bool) (b Bool) (n Int)) (=> (and (lights a b n) (= n 0)) (lights true b 1))))
(assert (forall ((a Bool) (b Bool) (n Int)) (=> (and (lights a b n) (= n 0)) (lights a true 2))))
(assert (forall ((a Bool) (b Bool) (n Int)) (=> (lights a b n) (lights false false 0))))
(assert (not (exists ((n Int)) (lights true true n))))
(check-sat)
