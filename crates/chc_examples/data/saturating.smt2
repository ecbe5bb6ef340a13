; A loop with a counter B that saturates, as the front end of a program verifier prints it. The question
; is whether B is at most 52 where the loop ends.
(set-info :source |printed by a front end|)
(set-info :smt-lib-version 2.6)
(set-option :fp.engine spacer)
(set-logic HORN)
(declare-fun |main@entry| () Bool)
(declare-fun |main@loop| (Int Int) Bool)
(declare-fun |main@exit| (Int Int) Bool)
(assert |main@entry|)
(assert (forall ((A Int) (B Int))
  (=> (and |main@entry| (= A 0) (= B 0)) (|main@loop| A B))))
(assert (forall ((A Int) (B Int) (C Int) (D Int))
  (let ((a!1 (and (< A 100) (= C (+ A 1)))) (a!2 (= D (ite (> B 50) B (+ B 2)))))
    (=> (and (|main@loop| A B) a!1 a!2) (|main@loop| C D)))))
(assert (forall ((A Int) (B Int))
  (=> (and (|main@loop| A B) (not (< A 100))) (|main@exit| A B))))

; A query: an implication that ends in false.
(assert (forall ((A Int) (B Int))
  (=> (and (|main@exit| A B) (not (<= B 52))) false)))
(check-sat)
(get-model)
(exit)
