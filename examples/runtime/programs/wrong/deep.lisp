; Recursion without an end.
(define (f n) (+ 1 (f n)))
(f 1)
