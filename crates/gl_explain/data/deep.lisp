(defun f (a)
  (let ((b (+ a 1)))
    (list a (logand BB b))))
