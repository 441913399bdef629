(in-package "ACL2")
(include-book "centaur/gl/gl" :dir :system)
(include-book "parts/included")

; The definitions come from a book that is included.
(defun swapped (x) (+ (* 16 (low-nibble x)) (high-nibble x)))
(gl::def-gl-thm swapped-twice
  :hyp (bytep x)
  :concl (equal (swapped (swapped x)) x)
  :g-bindings (gl::auto-bindings (:nat x 8)))
