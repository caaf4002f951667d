; A bank account: its process closure takes one call at a time, so no withdrawal sees a balance that
; another one is about to change. It gives the new balance, or nil where there isn't enough.
(defun make-account (balance)
  (qlambda t (amount)
    (if (< (+ balance amount) 0)
        nil
        (setq balance (+ balance amount)))))
; How often this amount could be withdrawn.
(defun withdraw-all (account amount)
  (if (funcall account (- 0 amount))
      (+ 1 (withdraw-all account amount))
      0))
(let ((account (make-account 100)))
  (qlet t ((a (withdraw-all account 7))
           (b (withdraw-all account 7))
           (c (withdraw-all account 7)))
    (print (+ a b c))
    (print (funcall account 0))))
