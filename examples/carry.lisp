; A ripple adder of 32 bits whose carry forgets one of its three cases. The theorem fails, and an input shows where.
(defun bit-of (b) (if b 1 0))

(defun carry-out (a b c)
  (or (and a b) (and a c)))

(defun ripple (n c x y)
  (declare (xargs :measure (nfix n)))
  (if (zp n)
      0
    (+ (bit-of (xor (xor (logbitp 0 x) (logbitp 0 y)) c))
       (* 2 (ripple (- n 1)
                    (carry-out (logbitp 0 x) (logbitp 0 y) c)
                    (ash x -1)
                    (ash y -1))))))

(def-gl-thm ripple-adds
  :hyp (and (unsigned-byte-p 32 x) (unsigned-byte-p 32 y))
  :concl (equal (ripple 33 nil x y) (+ x y))
  :g-bindings (auto-bindings (:mix (:nat x 32) (:nat y 32))))
