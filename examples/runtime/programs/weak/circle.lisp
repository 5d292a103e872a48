; Two tables, in each of which the key is the value of the other: a circle that keeps nothing, and neither do the tables
; that lie in it.

(define a (make-ephemeron-table))
(define b (make-ephemeron-table))
(define (tie from to)
  (table-set! a from to)
  (table-set! b to from))

(tie (list 'one) (list 'two))
(define held (list 'three))
(tie held (list 'four))
(collect)
(print (table-count a) (table-count b) (table-ref a held) (table-ref b (table-ref a held)))

(set! held '())
(collect)
(print (table-count a) (table-count b))

; the tables themselves are keys and values
(table-set! a b (list 'of 'b))
(table-set! b a (list 'of 'a))
(collect)
(print (table-ref a b) (table-ref b a))
(define outer (make-ephemeron-table))
(table-set! outer a b)
(table-set! outer b a)
(set! a '())
(collect)
(print (table-count outer) (table-count b))
(set! b '())
(collect)
(print (table-count outer))
