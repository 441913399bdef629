(in-package "ACL2")
(include-book "centaur/gl/gl" :dir :system)
; commutativity of the product, 9 bits, SAT mode
(gl::gl-satlink-mode)
(gl::def-gl-thm satmulc9
  :hyp (and (unsigned-byte-p 9 x) (unsigned-byte-p 9 y))
  :concl (equal (* x y) (* y x))
  :g-bindings (gl::auto-bindings (:nat x 9) (:nat y 9))
  :rule-classes nil)
