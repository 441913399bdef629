; commutativity of the product, 16 bits
(def-gl-thm product-commutes
  :hyp (and (unsigned-byte-p 16 x) (unsigned-byte-p 16 y))
  :concl (equal (* x y) (* y x))
  :g-bindings (auto-bindings (:mix (:nat x 16) (:nat y 16))))
