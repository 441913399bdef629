(in-package "ACL2")
(include-book "centaur/gl/gl" :dir :system)
(include-book "centaur/bitops/ihs-extensions" :dir :system)

; Functions of ACL2 itself and of its libraries, and fl of a quotient.
(gl::def-gl-thm heads-and-tails
  :hyp (unsigned-byte-p 16 x)
  :concl (and (equal (logapp 8 (loghead 8 x) (logtail 8 x)) x)
              (equal (logext 8 (loghead 8 x)) (logext 8 x))
              (equal (logcons (logcar x) (logcdr x)) x)
              (bitp (logbit 3 x)))
  :g-bindings (gl::auto-bindings (:nat x 16)))
(gl::def-gl-thm lists
  :hyp (and (unsigned-byte-p 4 x) (unsigned-byte-p 4 y))
  :concl (and (equal (reverse (list x y 1)) (list 1 y x))
              (equal (take 2 (list x y 1)) (list x y))
              (equal (strip-cars (pairlis$ (list x y) (list 1 2))) (butlast (list x y 3) 1))
              (equal (assoc x (acons x y nil)) (cons x y))
              (nat-listp (revappend (list x) (last (list x y)))))
  :g-bindings (gl::auto-bindings (:nat x 4) (:nat y 4)))
(gl::def-gl-thm powers
  :hyp (and (unsigned-byte-p 8 x) (unsigned-byte-p 3 n))
  :concl (equal (floor x (expt 2 n)) (ash x (- n)))
  :g-bindings (gl::auto-bindings (:nat x 8) (:nat n 3)))
