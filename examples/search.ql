; The first process that finds the number throws it to the catch, which kills the others.
; Each that has begun its unwind-protect says its name when it leaves it: it found nothing, threw or was killed.
(defun scan (wanted numbers)
  (cond ((null numbers) nil)
        ((eq wanted (car numbers)) (throw 'found wanted))
        (t (scan wanted (cdr numbers)))))
(defun look (name wanted numbers)
  (unwind-protect (scan wanted numbers)
    (print name)))
(print (catch 'found
         (qlet t ((a (look 'first 7 '(1 2 3)))
                  (b (look 'second 7 (list 5 6 7)))
                  (c (look 'third 7 nil)))
           (or a b c))))
