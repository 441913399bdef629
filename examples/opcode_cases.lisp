; An arithmetic and logic unit of four operations on words of 32 bits, by its opcode. A shift has its places in the five high bits
; of y. A sum wants the bits of x and y side by side in the order of the diagrams, and a shift wants its places before all bits
; of x: one run takes more than the usual 1,000,000 nodes in either order. Here each case has its own.
(defun stage (on places x)
  (if on (logand #xffffffff (ash x places)) x))

(defun barrel (x s)
  (stage (logbitp 0 s) 1
         (stage (logbitp 1 s) 2
                (stage (logbitp 2 s) 4
                       (stage (logbitp 3 s) 8
                              (stage (logbitp 4 s) 16 x))))))

(defun alu (op x y)
  (case op
    (0 (logand #xffffffff (+ x y)))
    (1 (logand #xffffffff (+ x (lognot y) 1)))
    (2 (barrel x (ash y -27)))
    (otherwise (- (logior x y) (logand x y)))))

(defun reference (op x y)
  (mod (cond ((equal op 0) (+ x y))
             ((equal op 1) (- x y))
             ((equal op 2) (ash x (floor y (ash 1 27))))
             (t (logxor x y)))
       (ash 1 32)))

; A case says which opcode it has, so that a constant covers it.
(def-gl-param-thm alu-meets-its-reference
  :hyp (and (unsigned-byte-p 2 op) (unsigned-byte-p 32 x) (unsigned-byte-p 32 y))
  :concl (equal (alu op x y) (reference op x y))
  :param-hyp (equal op code)
  :param-bindings `((((code 0)) ((op 0) (x ,(g-int 0 2 33)) (y ,(g-int 1 2 33))))
                    (((code 1)) ((op 1) (x ,(g-int 0 2 33)) (y ,(g-int 1 2 33))))
                    (((code 2)) ((op 2) (y ,(g-int 0 1 33)) (x ,(g-int 33 1 33))))
                    (((code 3)) ((op 3) (x ,(g-int 0 2 33)) (y ,(g-int 1 2 33)))))
  :cov-bindings (auto-bindings (:nat op 2) (:nat x 32) (:nat y 32)))
