; Four lists that live, each of which is replaced by its image, again and again.

(define (upto n onto) (if (= n 0) onto (upto (- n 1) (cons n onto))))
(define (reverse list onto) (if (null? list) onto (reverse (cdr list) (cons (car list) onto))))
(define (image f list onto) (if (null? list) (reverse onto '()) (image f (cdr list) (cons (f (car list)) onto))))
(define (sum list so-far) (if (null? list) so-far (sum (cdr list) (+ so-far (car list)))))

(define lists (vector '() '() '() '()))

(define (task k)
  (let ((round 0))
    (vector-set! lists k (upto 1000 '()))
    (while (< round 12)
      (vector-set! lists k (image (lambda (n) (+ n k)) (vector-ref lists k) '()))
      (set! round (+ round 1)))
    (sum (vector-ref lists k) 0)))

(print (parallel 4 task))
