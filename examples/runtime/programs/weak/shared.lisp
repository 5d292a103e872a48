; Tasks that share a table and a guardian, while they run: no entry is lost, and each guarded object is seen by one task.

(define tasks 8)
(define table (make-ephemeron-table))
(define seen (make-guardian))

; a task keeps each fifth of its keys
(define (fill k i kept)
  (if (= i 0)
      kept
      (let ((key (list k i)))
        (table-set! table key (list 'of key))
        (seen (list 'guarded k i))
        (fill k (- i 1) (if (= (remainder i 5) 0) (cons key kept) kept)))))

(define kept (parallel tasks (lambda (k) (fill k 20 '()))))
(collect)
(print (table-count table) (vector-ref kept 7))

(define (whole? keys)
  (if (null? keys)
      #t
      (if (eq? (car (cdr (table-ref table (car keys)))) (car keys)) (whole? (cdr keys)) (fail (car keys)))))
(print (parallel tasks (lambda (k) (whole? (vector-ref kept k)))))

(define (take count)
  (let ((next (seen)))
    (if next
        (if (eq? (car next) 'guarded) (take (+ count 1)) (fail next))
        count)))
(define taken (parallel tasks (lambda (k) (take 0))))
(define (sum i) (if (= i tasks) 0 (+ (vector-ref taken i) (sum (+ i 1)))))
(print (sum 0) (seen))

; all set the same keys: each has one entry
(define few (vector (list 0) (list 1) (list 2)))
(define (set k i)
  (if (> i 0)
      (begin
        (table-set! table (vector-ref few (remainder i 3)) k)
        (set k (- i 1)))
      k))
(set! kept (parallel tasks (lambda (k) (set k 20))))
(collect)
(print (table-count table) kept)
