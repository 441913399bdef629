; A generator of numbers of 16 bits, run for a thousand steps. Neither its diagrams nor its graphs fit into the million nodes that
; a run usually has, so this theorem is left undecided. It has more indices than are tried one by one, which are 12 where no
; option says otherwise.
(defun generated (n x)
  (if (zp n)
      x
    (generated (- n 1) (logand 65535 (+ (* x x) (ash x -3) 1)))))
(def-gl-thm generator-moves
  :hyp (unsigned-byte-p 16 x)
  :concl (not (equal (generated 1000 x) x))
  :g-bindings (auto-bindings (:nat x 16)))
