; The sieve of Eratosthenes as a pipeline. Each process closure keeps the first number that it is
; given, which is a prime, and hands on those that it doesn't divide, without waiting for an answer.
; The qcatch waits until all of them have nothing left to do.
(defvar primes nil)
(defun make-stage ()
  (let ((prime nil) (next nil))
    (qlambda t (n)
      (cond ((null prime)
             (setq prime n)
             (setq primes (cons n primes))
             (setq next (make-stage)))
            ((= (rem n prime) 0) nil)
            (t (funcall next n) nil)))))
(defun feed (stage n last)
  (when (<= n last)
    (funcall stage n)
    (feed stage (+ n 1) last)))
(qcatch 'all (feed (make-stage) 2 30))
(print primes)
