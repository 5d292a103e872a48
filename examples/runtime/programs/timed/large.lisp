; Much that lives: each task makes a large tree from below, keeps it, and counts it. A tree is empty, or (left . right).

(define (tree depth) (if (= depth 0) '() (cons (tree (- depth 1)) (tree (- depth 1)))))
(define (count tree) (if (null? tree) 0 (+ 1 (+ (count (car tree)) (count (cdr tree))))))

(define trees (vector '() '() '() '()))

(define (task k)
  (vector-set! trees k (tree 13))
  (count (vector-ref trees k)))

(print (parallel 4 task))
