(def-gl-thm byte-below-256
  :hyp (unsigned-byte-p 8 x)
  :concl (< x 256)
  :g-bindings (auto-bindings (:nat x 8)))
