; A counter that many processes share: its process takes one call at a time.
(defvar count 0)
(defvar counter (qlambda t (step) (setq count (+ count step))))
(defun add-all (steps)
  (when (consp steps)
    (funcall counter (car steps))
    (add-all (cdr steps))))
(qlet t ((a (add-all '(1 2 3))) (b (add-all '(10 20 30))))
  (print (funcall counter 0)))
