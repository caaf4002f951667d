; Fibonacci numbers, with the two calls of each step in processes of their own down to a depth.
(defun fib (n depth)
  (if (< n 2)
      n
      (qlet (> depth 0) ((a (fib (- n 1) (- depth 1)))
                         (b (fib (- n 2) (- depth 1))))
        (+ a b))))
(print (fib 20 4))
