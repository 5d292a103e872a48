; Vectors of 100,000 elements: at rest each is one object. Flipped, the first one has too many elements.

(define size 100000)
(define long (make-vector size 'none))

(define tasks 4)
(define part (quotient size tasks))

; puts a new pair into each tenth place of a part
(define (fill i end)
  (if (< i end)
      (begin (vector-set! long i (cons i 'made)) (fill (+ i 10) end))))

; long vectors that nobody keeps: they have words of their own, and end cycles too
(define (drop n)
  (if (= n 0)
      #t
      (let ((dropped (make-vector size n)))
        (if (= (vector-ref dropped (- size 1)) n) (drop (- n 1)) (fail dropped)))))

(define (task k)
  (fill (* k part) (* (+ k 1) part))
  (drop 30))

(print (parallel tasks task))

(define (total i sum)
  (if (< i size)
      (total (+ i 10) (+ sum (car (vector-ref long i))))
      sum))

(collect)
(print (vector-length long) (total 0 0) (vector-ref long 1) (vector-ref long (- size 10)))
