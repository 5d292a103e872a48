; A shared vector that is written very often, by loops that make no objects. The journal of its page fills again and
; again, and that ends the cycles: no page runs out.

(define tasks 4)
(define places (make-vector tasks 0))

(define (upto n) (if (= n 0) '() (cons n (upto (- n 1)))))
(define numbers (upto 20))

; writes to place k many times, and says whether the last number was there each time
(define (pass k)
  (let ((at numbers) (kept #t))
    (while (pair? at)
      (vector-set! places k 1)
      (vector-set! places k 2)
      (vector-set! places k 3)
      (vector-set! places k 4)
      (vector-set! places k 5)
      (vector-set! places k 6)
      (vector-set! places k 7)
      (vector-set! places k (car at))
      (if (eq? (vector-ref places k) (car at)) #t (set! kept #f))
      (set! at (cdr at)))
    kept))

(define (task k)
  (let ((kept #t))
    (while (if (< (cycles) 100) kept #f) (set! kept (pass k)))
    (pass k)))

(print (parallel tasks task) places)
