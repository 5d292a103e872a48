; A name without a value.
(print (+ 1 2))
(print (nowhere 3))
