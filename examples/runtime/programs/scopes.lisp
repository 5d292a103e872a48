; The language: scopes, closures, rings, vectors longer than an object, and recursion, in heaps that move.

(define (counter)
  (let ((n 0)) (lambda (more) (set! n (+ n more)) n)))
(define a (counter))
(define b (counter))

; a closure of closures: f applied n times
(define (times n f) (if (= n 0) (lambda (x) x) (lambda (x) (f ((times (- n 1) f) x)))))

(define ring (list 1 2 3 4 5))
(set-cdr! (cdr (cdr (cdr (cdr ring)))) ring)
(define (walk list n) (if (= n 0) (car list) (walk (cdr list) (- n 1))))

(define long (make-vector 200 0))
(define (fill i) (if (< i 200) (begin (vector-set! long i (* i i)) (fill (+ i 1)))))
(fill 0)
(define (total i) (if (= i 200) 0 (+ (vector-ref long i) (total (+ i 1)))))

(define (deep n) (if (= n 0) '() (cons (deep (- n 1)) '())))
(define (depth list) (if (null? list) 0 (+ 1 (depth (car list)))))

(let ((rounds 0))
  (while (< (cycles) 100)
    (set! rounds (+ rounds 1))
    (if (= (a 1) rounds) #t (fail 'a))
    (if (= (b 2) (* 2 rounds)) #t (fail 'b))
    (if (= ((times 10 (lambda (x) (* 2 x))) 1) 1024) #t (fail 'times))
    (if (= (walk ring 52) 3) #t (fail 'ring))
    (fill 0)
    (if (= (total 0) 2646700) #t (fail 'total))
    (if (= (depth (deep 300)) 300) #t (fail 'deep))))

(print 'quoted ''x '(a (b c) ()) #t #f)
(print (letrec ((even? (lambda (n) (if (= n 0) #t (odd? (- n 1)))))
                (odd? (lambda (n) (if (= n 0) #f (even? (- n 1))))))
         (even? 100)))
(print (- 7) (quotient -7 2) (remainder -7 2) (+) (*) (< 1 2) (> 1 2) (eq? 'a 'a) (not 3) (pair? ring))
(print (let ((x 1)) (let ((x 2) (y x)) (list x y))))
(print (if #f 1) (vector) (vector 'a (vector 1 (list 2)) -5) car (lambda (x) x))
(print (vector-ref long 199) (vector-length long))
(define most 576460752303423487) ; of 60 bits
(print most (+ most 1) (- (+ most 1) 1) (- (- most) 1) (- (- most) 2) (= (- (- (- most) 2) -1) (- (- most) 1)) (eq? 7 (+ 3 4)))
