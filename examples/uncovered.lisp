(def-gl-thm shape-too-narrow
  :hyp (unsigned-byte-p 8 x)
  :concl (< x 256)
  :g-bindings (auto-bindings (:nat x 7)))
