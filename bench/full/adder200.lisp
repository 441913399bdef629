; words of 200 bits in two halves: carries bit by bit, against sums of the halves; the words stand one after the other
(defun full-carry (a b c) (logior (logand a b) (logand a c) (logand b c)))
(defun ripple (n x y c)
  (if (zp n)
      c
    (let ((a (logand x 1)) (b (logand y 1)))
      (+ (logxor a b c) (* 2 (ripple (- n 1) (ash x -1) (ash y -1) (full-carry a b c)))))))
(defun by-bits (x1 x0 y1 y0)
  (let* ((low (ripple 100 x0 y0 0)) (high (ripple 100 x1 y1 (ash low -100))))
    (list (logand low (- (ash 1 100) 1)) high)))
(defun by-halves (x1 x0 y1 y0)
  (let ((low (+ x0 y0)))
    (if (< low (ash 1 100))
        (list low (+ x1 y1))
      (list (- low (ash 1 100)) (+ 1 x1 y1)))))
(def-gl-thm adders-agree
  :hyp (and (unsigned-byte-p 100 x1) (unsigned-byte-p 100 x0) (unsigned-byte-p 100 y1) (unsigned-byte-p 100 y0))
  :concl (equal (by-bits x1 x0 y1 y0) (by-halves x1 x0 y1 y0))
  :g-bindings (auto-bindings (:nat x1 100) (:nat x0 100) (:nat y1 100) (:nat y0 100)))
