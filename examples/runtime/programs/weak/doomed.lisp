; A table that dies keeps no value, though its keys live.

(define keys (list (list 1) (list 2) (list 3)))
(define values (make-ephemeron-table))

(define (fill table keys)
  (if (pair? keys)
      (let ((value (list 'value (car keys))))
        (table-set! values value 'alive)
        (table-set! table (car keys) value)
        (fill table (cdr keys)))
      table))

(define doomed (fill (make-ephemeron-table) keys))
(collect)
(print (table-count values) (table-count doomed) (table-ref doomed (car keys)))

(set! doomed '())
(collect)
(print (table-count values) keys)

; a table that only its own value holds, by a key that lives
(define (own table) (table-set! table (car keys) (fill table (cdr keys))))
(own (make-ephemeron-table))
(collect)
(print (table-count values))
