; Trees that are made from below and counted, while one of them lives. A tree is empty, or (left . right).

(define (tree depth) (if (= depth 0) '() (cons (tree (- depth 1)) (tree (- depth 1)))))
(define (count tree) (if (null? tree) 0 (+ 1 (+ (count (car tree)) (count (cdr tree))))))

(define old (tree 11))

(define (task k)
  (let ((round 0) (sum 0))
    (while (< round 40)
      (set! sum (+ sum (count (tree 7))))
      (set! round (+ round 1)))
    (+ sum k)))

(print (parallel 4 task))
(print (count old))
