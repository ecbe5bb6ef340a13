; Books of three sizes on a shelf, in one assertion that chooses. The shelf holds 24.
(set-logic HORN)
(declare-fun shelf (Int Int) Bool)
(assert (shelf 0 0))
(assert (forall ((w Int) (n Int) (k Int))
  (let ((wider (+ w (ite (= k 1) 1 (ite (= k 2) 2 3)))))
    (=> (and (shelf w n) (<= wider 24)) (shelf wider (+ n 1))))))
(assert (forall ((w Int) (n Int)) (=> (and (shelf w n) (or (> w 24) (< n 0) (< w n))) false)))
(check-sat)
