; A chain: the value of each entry is the key of another one, which stands before it in the table. So a pass over the
; table finds one more link to be alive, and no more.

(define links 60)
(define table (make-ephemeron-table))

; the entry of the last link comes first
(define (chain n key)
  (if (< n links)
      (let ((value (list n)))
        (chain (+ n 1) value)
        (table-set! table key value))))

(define (walk key n)
  (let ((value (table-ref table key)))
    (if value
        (if (= (car value) n) (walk value (+ n 1)) (fail value))
        n)))

(define first (list 'first))
(chain 0 first)
(collect)
(print (table-count table) (walk first 0))

; from the middle on it hangs on one key
(define (skip key n) (if (= n 0) key (skip (table-ref table key) (- n 1))))
(set! first (skip first 20))
(collect)
(print (table-count table) (walk first 20))

(set! first '())
(collect)
(print (table-count table))
