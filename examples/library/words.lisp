; Words of 32 bits.
(in-package "ACL2")

(defun word (x) (logand x #xffffffff))

(defun bit-of (b) (if b 1 0))

(def-gl-thm a-word-has-32-bits
  :hyp (signed-byte-p 40 x)
  :concl (unsigned-byte-p 32 (word x))
  :g-bindings (auto-bindings (:int x 40)))
