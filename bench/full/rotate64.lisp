; a word of 64 bits turned to the left by steps of powers of two, and to the right by the rest; the word in front of the count
(defun turn (k x) (logior (logand (ash x k) (lognot (ash -1 64))) (ash x (- k 64))))
(defun turn-left (i n x)
  (if (zp i)
      x
    (turn-left (- i 1) (ash n -1) (if (logbitp 0 n) (turn (ash 1 (- 6 i)) x) x))))
(def-gl-thm two-turns
  :hyp (and (unsigned-byte-p 64 x) (unsigned-byte-p 6 n))
  :concl (equal (turn-left 6 (logand 63 (- 64 n)) (turn-left 6 n x)) x)
  :g-bindings (auto-bindings (:nat x 64) (:nat n 6)))
