; The product of a list's numbers. The first zero is thrown to the catch, so none of the others is looked at.
(defun product (numbers)
  (cond ((null numbers) 1)
        ((= 0 (car numbers)) (throw 'zero 0))
        (t (* (car numbers) (product (cdr numbers))))))
(print (catch 'zero (product '(1 2 3 4))))
(print (catch 'zero (product '(1 0 3 4))))
