; An arithmetic and logic unit of eight operations on words of 32 bits, against a reference that is written another way.
(defun word (x) (logand x #xffffffff))

(defun alu (op x y)
  (word (case op
          (0 (+ x y))
          (1 (+ x (lognot y) 1))
          (2 (logand x y))
          (3 (lognot (logand (lognot x) (lognot y))))
          (4 (- (logior x y) (logand x y)))
          (5 (lognot x))
          (6 (ash x 1))
          (otherwise (ash x -1)))))

(defun reference (op x y)
  (mod (cond ((equal op 0) (+ x y))
             ((equal op 1) (- x y))
             ((equal op 2) (logand x y))
             ((equal op 3) (logior x y))
             ((equal op 4) (logxor x y))
             ((equal op 5) (- #xffffffff x))
             ((equal op 6) (* 2 x))
             (t (floor x 2)))
       (ash 1 32)))

(def-gl-thm alu-meets-its-reference
  :hyp (and (unsigned-byte-p 3 op) (unsigned-byte-p 32 x) (unsigned-byte-p 32 y))
  :concl (equal (alu op x y) (reference op x y))
  :g-bindings (auto-bindings (:nat op 3) (:mix (:nat x 32) (:nat y 32))))
