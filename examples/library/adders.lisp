; A ripple adder on words.
(in-package "ACL2")
(include-book "words")

(defun majority (a b c)
  (or (and a b) (and c (or a b))))

(defun ripple (n c x y)
  (declare (xargs :measure (nfix n)))
  (if (zp n)
      0
    (+ (bit-of (xor (xor (logbitp 0 x) (logbitp 0 y)) c))
       (* 2 (ripple (- n 1)
                    (majority (logbitp 0 x) (logbitp 0 y) c)
                    (ash x -1)
                    (ash y -1))))))

(defun add-words (x y) (ripple 32 nil x y))

(def-gl-thm the-adder-adds
  :hyp (and (unsigned-byte-p 32 x) (unsigned-byte-p 32 y))
  :concl (equal (add-words x y) (word (+ x y)))
  :g-bindings (auto-bindings (:mix (:nat x 32) (:nat y 32))))
