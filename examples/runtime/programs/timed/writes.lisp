; A vector that is written very often, and nothing is made but what a call needs: each task adds numbers in its place.

(define places (vector 0 0 0 0))

(define (task k)
  (let ((round 0))
    (while (< round 20000)
      (vector-set! places k (+ (vector-ref places k) round))
      (set! round (+ round 1)))
    (vector-ref places k)))

(print (parallel 4 task))
