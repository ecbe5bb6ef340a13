; Facts of two machines; declarations may stand between them.
(set-logic HORN)

(declare-fun first_state (Int) Bool)
(assert (first_state 0))
(assert (first_state 7))

(declare-fun second_state (Int Int Int) Bool)
(assert (second_state 0 0 9223372036854775807))
(assert (first_state 8))

; A predicate without a fact is defined too.
(declare-fun unused! (Int) Bool)
(check-sat)
