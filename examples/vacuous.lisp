(def-gl-thm no-input
  :hyp (if (unsigned-byte-p 2 x) (< x 0) nil)
  :concl (equal x 7)
  :g-bindings (auto-bindings (:nat x 2)))
