(defun twice (n) (+ n n))
(print (twice 3))
