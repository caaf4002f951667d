; A throw kills two processes within the catch. Each runs its cleanups, the innermost first. The catch
; doesn't wait for them, and a qcatch does.
(defun spin () (spin))
(defun work (name)
  (unwind-protect
      (unwind-protect (spin) (print (list name 'inner)))
    (print (list name 'outer))))
(print (catch 'stop (qlet t ((a (work 'a)) (b (work 'b)) (c (throw 'stop 'left))) a)))
(print (qcatch 'stop (qlet t ((a (work 'c)) (b (work 'd)) (c (throw 'stop 'left-late))) a)))
