; All that is made is kept.
(define kept '())
(define (keep) (set! kept (cons (make-vector 60 1) kept)))
(print 'begin)
(while #t (keep))
