; a checksum of a product of 24 bits: the digits of base 4096 cast out before it and after it
(def-gl-thm remainder-of-a-product
  :hyp (and (unsigned-byte-p 24 x) (unsigned-byte-p 12 y))
  :concl (equal (mod (* x y) 4095) (mod (* (mod x 4095) y) 4095))
  :g-bindings (auto-bindings (:nat y 12) (:nat x 24)))
