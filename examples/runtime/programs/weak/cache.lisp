; A cache by weak keys, whose values lead to their own keys: an entry goes with its key all the same.

(define cache (make-ephemeron-table))
(define (describe! key) (table-set! cache key (list 'described key)))

(define kept '())
(define (fill n)
  (if (> n 0)
      (let ((key (cons n '())))
        (describe! key)
        (if (= (remainder n 4) 0) (set! kept (cons key kept)))
        (fill (- n 1)))))

; a key that is not described as it must be
(define (astray keys)
  (if (null? keys)
      'none
      (let ((found (table-ref cache (car keys))))
        (if (eq? (car (cdr found)) (car keys)) (astray (cdr keys)) (car keys)))))

(fill 40)
(collect)
(print (table-count cache) (astray kept))
; the keys go one by one
(define (drop)
  (if (null? kept)
      'dropped
      (begin
        (set! kept (cdr kept))
        (collect)
        (if (= (table-count cache) (length kept)) (drop) (fail kept)))))
(define (length list) (if (null? list) 0 (+ 1 (length (cdr list)))))
(print (drop) (table-count cache))

; integers are keys that never die; an integer of more than 60 bits is an object
(table-set! cache 7 'seven)
(table-set! cache 4611686018427387904 'large)
(collect)
(print (table-count cache) (table-ref cache 7) (table-ref cache 8) (table-ref cache 8 'absent))

; values that are changed, and entries that are taken out
(table-set! cache 7 'changed)
(table-set! cache 8 '())
(print (table-ref cache 7) (table-ref cache 8))
(table-delete! cache 7)
(table-delete! cache 7)
(print (table-count cache) (table-ref cache 7) cache)

; under load: most keys die, those that live have their values
(define (next number) (remainder (+ (* number 1103) 12345) 9973))
(define (churn n number)
  (if (> n 0)
      (let ((key (list number)))
        (describe! key)
        (if (= (remainder n 10) 0) (set! kept (cons key kept)))
        (churn (- n 1) (next number)))))
(churn 200 1)
(collect)
(print (table-count cache) (astray kept))
