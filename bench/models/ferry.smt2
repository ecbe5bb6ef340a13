; A ferry takes two cars a crossing and rests after the thirtieth, so that cars are twice the crossings.
(set-logic HORN)
(declare-fun ferry (Int Int) Bool)
(assert (ferry 0 0))
(assert (forall ((cars Int) (trips Int)) (=> (and (ferry cars trips) (< trips 30)) (ferry (+ cars 2) (+ trips 1)))))
(assert (forall ((cars Int) (trips Int)) (=> (ferry cars trips) (= cars (* 2 trips)))))
(check-sat)
