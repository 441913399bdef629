; a comparison by the sign of a difference of 32 bits, which is wrong where the difference does not fit; the words apart
(defun sign-of-difference (a b)
  (logbitp 31 (logand #xffffffff (- a b))))
(def-gl-thm below-by-sign
  :hyp (and (signed-byte-p 32 a) (signed-byte-p 32 b) (signed-byte-p 32 c) (< a c) (< c 2147483000) (< -2147483000 b))
  :concl (equal (sign-of-difference a b) (< a b))
  :g-bindings (auto-bindings (:int a 32) (:int c 32) (:int b 32)))
