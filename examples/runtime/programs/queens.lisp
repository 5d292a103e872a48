; Queens, the naive way. Task k counts the ways to place six queens, the first one in column k.

(define size 6)

; is there no queen that takes this column, `away` rows further on?
(define (safe? column queens away)
  (if (null? queens)
      #t
      (if (= (car queens) column)
          #f
          (if (= (car queens) (+ column away))
              #f
              (if (= (car queens) (- column away))
                  #f
                  (safe? column (cdr queens) (+ away 1)))))))

(define (count-from row queens)
  (if (= row size) 1 (try 0 row queens 0)))

(define (try column row queens found)
  (if (= column size)
      found
      (try (+ column 1) row queens
           (if (safe? column queens 1)
               (+ found (count-from (+ row 1) (cons column queens)))
               found))))

(define (task k) (count-from 1 (cons k '())))

(define (sum vector i)
  (if (= i (vector-length vector)) 0 (+ (vector-ref vector i) (sum vector (+ i 1)))))

(define found (parallel size task))
(while (< (cycles) 100)
  (set! found (parallel size task))
  (if (= (sum found 0) 4) #t (fail found)))
(print 'queens found 'in 'all (sum found 0))
