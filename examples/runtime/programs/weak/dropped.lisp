; A guardian that nobody holds sees nothing: what it guards dies as other objects do, also if it leads to the guardian.

(define alive (make-ephemeron-table))
(define (guarded-by guardian name)
  (let ((object (list name guardian)))
    (table-set! alive object name)
    (guardian object)
    guardian))

(guarded-by (make-guardian) 'one)
(collect)
(print (table-count alive))

; it goes with what it has not yet handed out
(define waiting (guarded-by (make-guardian) 'two))
(collect)
(print (table-count alive))
(set! waiting '())
(collect)
(print (table-count alive))

; a guardian that guards a guardian: who holds the outer one sees all
(define outer (make-guardian))
(outer (guarded-by (make-guardian) 'three))
(collect)
(define inner (outer))
(print (car (inner)) (inner) (outer))
(collect)
(print (table-count alive))
(set! inner '())
(collect)
(print (table-count alive))

; one that guards itself
(define self (make-guardian))
(self self)
(set! self '())
(collect)
(define other (make-guardian))
(other other)
(collect)
(print (other))
