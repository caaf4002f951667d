; Sums, printed. The value of a top form is dropped.
(print (+ 1 2))
(print (+ 1 -2))
(+ 1000 1000)
(print (+ (+ 4000 900) (+ 25 25)))
