; Three locks, each held by a process that waits for the next one. The run stops by deadlock.
(defun make-lock ()
  (qlambda t (work) (funcall work)))
(let ((l1 (make-lock)) (l2 (make-lock)) (l3 (make-lock)))
  (qlet t ((a (funcall l1 (lambda () (funcall l2 (lambda () 'a)))))
           (b (funcall l2 (lambda () (funcall l3 (lambda () 'b)))))
           (c (funcall l3 (lambda () (funcall l1 (lambda () 'c))))))
    (print (list a b c))))
