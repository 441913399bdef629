(in-package "ACL2")
(include-book "centaur/gl/gl" :dir :system)
; commutativity of the product, 8 bits, SAT mode
(gl::gl-satlink-mode)
(gl::def-gl-thm satmulc8
  :hyp (and (unsigned-byte-p 8 x) (unsigned-byte-p 8 y))
  :concl (equal (* x y) (* y x))
  :g-bindings (gl::auto-bindings (:nat x 8) (:nat y 8))
  :rule-classes nil)
