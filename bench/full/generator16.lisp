; a generator of numbers of 16 bits, a thousand steps: more nodes than there may be in diagrams and in graphs
(defun generated (n x)
  (if (zp n)
      x
    (generated (- n 1) (logand #xffff (+ (* x x) (ash x -3) 1)))))
(def-gl-thm never-back
  :hyp (unsigned-byte-p 16 x)
  :concl (not (equal (generated 1000 x) 1))
  :g-bindings (auto-bindings (:nat x 16)))
