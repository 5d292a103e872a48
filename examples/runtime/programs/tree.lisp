; A sorted tree, built again and again. Task k sorts its own 60 numbers, each time into a new tree.
; A tree is empty, or (number left . right).

(define (left tree) (car (cdr tree)))
(define (right tree) (cdr (cdr tree)))

; puts the number into the tree, in place
(define (insert! tree number)
  (if (< number (car tree))
      (if (null? (left tree))
          (set-car! (cdr tree) (leaf number))
          (insert! (left tree) number))
      (if (null? (right tree))
          (set-cdr! (cdr tree) (leaf number))
          (insert! (right tree) number))))

(define (leaf number) (cons number (cons '() '())))

; the numbers of the tree in order, before those of `rest`
(define (in-order tree rest)
  (if (null? tree)
      rest
      (in-order (left tree) (cons (car tree) (in-order (right tree) rest)))))

(define (next number) (remainder (+ (* number 1103) 12345) 9973))

(define (task k)
  (let ((tree (leaf k)) (number k) (i 1))
    (while (< i 60)
      (set! number (next number))
      (insert! tree number)
      (set! i (+ i 1)))
    (in-order tree '())))

(define (sorted? numbers)
  (if (null? (cdr numbers))
      #t
      (if (> (car numbers) (car (cdr numbers))) #f (sorted? (cdr numbers)))))

(define (length numbers) (if (null? numbers) 0 (+ 1 (length (cdr numbers)))))
(define (sum numbers) (if (null? numbers) 0 (+ (car numbers) (sum (cdr numbers)))))

(define (check sorts i)
  (if (< i (vector-length sorts))
      (begin
        (if (sorted? (vector-ref sorts i)) #t (fail (vector-ref sorts i)))
        (if (= (length (vector-ref sorts i)) 60) #t (fail i))
        (check sorts (+ i 1)))))

(define sorts (parallel 8 task))
(while (< (cycles) 100)
  (set! sorts (parallel 8 task))
  (check sorts 0))

(define (sums i) (if (= i 8) '() (cons (sum (vector-ref sorts i)) (sums (+ i 1)))))
(print (sums 0))
(print (vector-ref sorts 3))
