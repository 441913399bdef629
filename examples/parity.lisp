; The parity of a word of 16 bits, along a chain and by folding the word onto itself. The mode for later theorems is that of
; satisfiability: a search looks for a word on which the two differ, and that there is none is checked before it is believed.
(gl-satlink-mode)

(defun chain (n x)
  (declare (xargs :measure (nfix n)))
  (if (zp n)
      nil
    (xor (logbitp (- n 1) x) (chain (- n 1) x))))

(defun folded (x)
  (let* ((x (logxor x (ash x -8)))
         (x (logxor x (ash x -4)))
         (x (logxor x (ash x -2)))
         (x (logxor x (ash x -1))))
    (logbitp 0 x)))

(def-gl-thm fold-is-chain
  :hyp (unsigned-byte-p 16 x)
  :concl (iff (folded x) (chain 16 x))
  :g-bindings (auto-bindings (:nat x 16)))
