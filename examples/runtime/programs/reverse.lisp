; Lists reversed many times. They live in a shared vector from one round to the next.

(define tasks 6)
(define lists (make-vector tasks '()))

(define (upto n) (if (= n 0) '() (cons n (upto (- n 1)))))

; in new cells
(define (reverse list onto)
  (if (null? list) onto (reverse (cdr list) (cons (car list) onto))))

; in the same cells
(define (reverse! list onto)
  (if (null? list)
      onto
      (let ((rest (cdr list)))
        (set-cdr! list onto)
        (reverse! rest list))))

(let ((i 0))
  (while (< i tasks)
    (vector-set! lists i (upto (* 20 (+ i 1))))
    (set! i (+ i 1))))

; an even number of times: the list is then as it was
(define (task k)
  (vector-set! lists k (reverse (vector-ref lists k) '()))
  (vector-set! lists k (reverse! (vector-ref lists k) '()))
  (vector-set! lists k (reverse! (reverse (vector-ref lists k) '()) '()))
  (car (vector-ref lists k)))

(define firsts (parallel tasks task))
(while (< (cycles) 100) (set! firsts (parallel tasks task)))
(print firsts)
(print (vector-ref lists 1))
