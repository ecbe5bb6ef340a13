; What is taken from one pan of the scales is put on the other, so that the sum of both never changes. It is above 2^63.
(set-logic HORN)
(declare-fun pans (Int Int) Bool)
(assert (pans 5000000000000000000 5000000000000000000))
(assert (forall ((a Int) (b Int) (k Int)) (=> (pans a b) (pans (- a k) (+ b k)))))
(assert (forall ((a Int) (b Int)) (=> (and (pans a b) (= a 5000000000000000000)) (>= b 5000000000000000000))))
(check-sat)
