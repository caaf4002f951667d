; Read and written again, each form in its one spelling.
'(a . (b . (c . 4)))
()
(print ''x)
(defun fib (n)          ; not run yet
  (if (< n 2) n
    (+ (fib (- n 1)) (fib (- n 2)))))
