; A pump that is switched on, and what it does to the level of a tank.
(set-info :source "written by hand")
(set-logic HORN)

; Between bars a name may hold spaces, or be a reserved word. |level| and level are one name.
(declare-const |power on| Bool)
(declare-fun |level| (Int) Bool)
(declare-fun |let| (Bool Int) Bool) ; whether the pump fills the tank, and by how much

(assert |power on|)
(assert (level (- 5)))

; It moves twice the level up or down.
(assert (forall ((x Int) (fills Bool))
  (=> |power on| (level x)
    (|let| fills (let ((twice (* 2 x))) (ite fills twice (- twice)))))))

; A level follows from another one by a move that is a multiple of 4.
(assert (forall ((x Int) (fills Bool) (move Int))
  (=> (and (level x) (|let| fills move) ((_ divisible 4) move))
    (level (+ x move)))))

(check-sat)
(get-model)
(exit)

Nothing behind the exit is looked at: ) is no fault here.
