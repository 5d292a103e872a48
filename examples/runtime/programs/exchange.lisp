; Tasks that hand lists to one another by a shared vector, while they run. Whatever a task finds there is whole: a list
; of numbers behind its sum. What it finds depends on the schedule; that it is whole does not.

(define tasks 8)
(define places 5)
(define shared (make-vector places (list 0)))

(define (sum numbers) (if (null? numbers) 0 (+ (car numbers) (sum (cdr numbers)))))
(define (with-sum numbers) (cons (sum numbers) numbers))
(define (whole? list) (= (car list) (sum (cdr list))))
(define (shorter list) (if (null? list) '() (if (null? (cdr list)) '() (cdr list))))

(define (task k)
  (let ((i 0) (seen 0))
    (while (< i 20)
      (let ((found (vector-ref shared (remainder (+ k i) places))))
        (if (whole? found) (set! seen (+ seen 1)) (fail found))
        ; the found list goes on, shorter by one and longer by two
        (vector-set! shared (remainder (* k (+ i 1)) places)
                     (with-sum (cons k (cons i (shorter (if (> i 10) '() (cdr found))))))))
      (set! i (+ i 1)))
    seen))

(define seen (parallel tasks task))
(while (< (cycles) 100) (set! seen (parallel tasks task)))
(print seen)
