; A choice between two states. It is no Horn clause, since a disjunction has one head at most.
(set-logic HORN)
(declare-fun left (Int) Bool)
(declare-fun right (Int) Bool)
(declare-fun start (Int) Bool)
(assert (start 0))
(assert (forall ((x Int))
  (or (not (start x)) (left x) (right x))))
(check-sat)
