; The last task fails. The others wait for it, and are stopped.
(define done (vector 0))
(define (task k)
  (if (= k 3)
      (fail (list 'task k))
      (if (< k 2) k (vector-set! done 0 k))))
(parallel 4 task)
