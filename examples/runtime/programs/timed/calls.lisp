; Calls, and little that lives: each task computes a number of Fibonacci, the naive way.

(define (fib n) (if (< n 2) n (+ (fib (- n 1)) (fib (- n 2)))))
(define (task k) (fib (+ 18 k)))

(print (parallel 4 task))
