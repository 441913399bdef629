; three comparisons of words of 40 bits, which stand one after the other
(def-gl-thm below-all
  :hyp (and (unsigned-byte-p 40 a) (unsigned-byte-p 40 b) (unsigned-byte-p 40 c) (unsigned-byte-p 40 d))
  :concl (implies (and (< a b) (< b c) (< c d)) (< a d))
  :g-bindings (auto-bindings (:nat a 40) (:nat b 40) (:nat c 40) (:nat d 40)))
