; A guardian sees an object that nothing else holds, once, with all that it reaches; and again if it is guarded again.

(define seen (make-guardian))
(define notes (make-ephemeron-table))

(define (open name)
  (let ((file (list name (vector 'buffer name))))
    (table-set! notes file (list 'note 'of name))
    (seen file)
    file))

(define log (open 'log))
(open 'first)
(open 'second)
(print (table-count notes))
(collect)

; the ones that nobody kept, in their order, with what they reach, and what hangs on them as keys
(define (next)
  (let ((file (seen)))
    (if file (print file (table-ref notes file)) (print 'none))))
(next)
(next)
(next)
(collect)
(next)
(print (table-count notes) (table-ref notes log))

; seen, guarded again, seen again
(set! log '())
(collect)
(set! log (seen))
(print log (seen))
(seen log)
(collect)
(print (seen))
(set! log '())
(collect)
(print (seen) (seen))
(collect)
(print (table-count notes) (seen))

; guarded twice, by one or by two: seen twice
(define other (make-guardian))
(define (twice object) (seen object) (seen object) (other object))
(twice (list 'twice))
(collect)
(define one (seen))
(print one (eq? one (seen)) (eq? one (other)) (seen) (other))

; what is no object is never lost
(seen 7)
(seen '())
(seen #t)
(collect)
(print (seen))

; of two that hold one another both are seen
(define (pair) (let ((left (list 'left)) (right (list 'right)))
  (set-cdr! left (cons right '()))
  (seen left)
  (seen right)))
(pair)
(collect)
(define left (seen))
(define right (seen))
(print left right (eq? (car (cdr left)) right))
