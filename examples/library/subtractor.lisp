; A subtractor made of the library's adder. The names below count from where the program runs: run it in this folder.
(in-package "ACL2")
(include-book "words")
(include-book "adders")

(defun subtract-words (x y)
  (add-words x (add-words (word (lognot y)) 1)))

(def-gl-thm the-subtractor-subtracts
  :hyp (and (unsigned-byte-p 32 x) (unsigned-byte-p 32 y))
  :concl (equal (subtract-words x y) (word (- x y)))
  :g-bindings (auto-bindings (:mix (:nat x 32) (:nat y 32))))
