; A list that ends with the text.
(print (list 1 2)
