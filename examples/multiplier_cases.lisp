; A multiplier of 8 by 16 bits against shifts and adds, by the four low bits of the multiplicand. In one run it takes more than the
; usual 1,000,000 nodes, and a search more than its usual clauses: `UNDECIDED MULTIPLIER nodes`. Each case has four bits fewer, and
; takes less than half of them.
(defun shift-and-add (n x y)
  (if (zp n)
      0
    (+ (if (logbitp 0 x) y 0)
       (* 2 (shift-and-add (- n 1) (ash x -1) y)))))

(def-gl-param-thm multiplier
  :hyp (and (unsigned-byte-p 8 x) (unsigned-byte-p 16 y))
  :concl (equal (* x y) (shift-and-add 8 x y))
  :param-hyp (equal (logand x 15) low)
  :param-bindings `((((low 0)) ((x ,(g-int 0 1 9)) (y ,(g-int 9 1 17))))
                    (((low 1)) ((x ,(g-int 0 1 9)) (y ,(g-int 9 1 17))))
                    (((low 2)) ((x ,(g-int 0 1 9)) (y ,(g-int 9 1 17))))
                    (((low 3)) ((x ,(g-int 0 1 9)) (y ,(g-int 9 1 17))))
                    (((low 4)) ((x ,(g-int 0 1 9)) (y ,(g-int 9 1 17))))
                    (((low 5)) ((x ,(g-int 0 1 9)) (y ,(g-int 9 1 17))))
                    (((low 6)) ((x ,(g-int 0 1 9)) (y ,(g-int 9 1 17))))
                    (((low 7)) ((x ,(g-int 0 1 9)) (y ,(g-int 9 1 17))))
                    (((low 8)) ((x ,(g-int 0 1 9)) (y ,(g-int 9 1 17))))
                    (((low 9)) ((x ,(g-int 0 1 9)) (y ,(g-int 9 1 17))))
                    (((low 10)) ((x ,(g-int 0 1 9)) (y ,(g-int 9 1 17))))
                    (((low 11)) ((x ,(g-int 0 1 9)) (y ,(g-int 9 1 17))))
                    (((low 12)) ((x ,(g-int 0 1 9)) (y ,(g-int 9 1 17))))
                    (((low 13)) ((x ,(g-int 0 1 9)) (y ,(g-int 9 1 17))))
                    (((low 14)) ((x ,(g-int 0 1 9)) (y ,(g-int 9 1 17))))
                    (((low 15)) ((x ,(g-int 0 1 9)) (y ,(g-int 9 1 17)))))
  :cov-bindings (auto-bindings (:nat x 8) (:nat y 16)))
