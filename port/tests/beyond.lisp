(in-package "ACL2")
(include-book "centaur/gl/gl" :dir :system)

; What the language does not have, where it is reached seldom or never: ratios, names of symbols, functions without a body, deep calls.
(defstub unknown (x) t)
(defun named (x) (if (equal x 4097) (length (symbol-name (if (consp x) 'a 'b))) x))
(defun unknown-above (x) (if (< 5000 x) (unknown x) (list x)))
(defun deep (n) (declare (xargs :measure (nfix (- n 2)))) (if (and (integerp n) (< 2 n)) (deep (- n 3)) n))
(gl::def-gl-thm never-reached
  :hyp (unsigned-byte-p 12 x) :concl (and (equal (named x) x) (consp (unknown-above x))) :g-bindings (gl::auto-bindings (:nat x 12)))
(gl::def-gl-thm reached-once ; refuted: the name has one letter
  :hyp (unsigned-byte-p 16 x) :concl (equal (named x) x) :g-bindings (gl::auto-bindings (:nat x 16)))
(gl::def-gl-thm a-quotient-of-some ; refuted
  :hyp (unsigned-byte-p 4 x) :concl (if (equal (mod x 4) 0) (< (/ x 4) 3) t) :g-bindings (gl::auto-bindings (:nat x 4)))
(gl::def-gl-thm floors-of-ratios
  :hyp (and (unsigned-byte-p 6 x) (unsigned-byte-p 2 n))
  :concl (and (equal (floor (* 3/4 x) 1) (floor (* 3 x) 4)) (equal (floor (* x (expt 2 (- n))) 1) (ash x (- n)))
              (equal (integerp (/ x 8)) (equal (mod x 8) 0)) (equal (numerator x) x) (equal (denominator x) 1)
              (rationalp x) (acl2-numberp x) (not (complex-rationalp x)))
  :g-bindings (gl::auto-bindings (:nat x 6) (:nat n 2)))
(gl::def-gl-thm by-threes ; refuted
  :hyp (unsigned-byte-p 7 x) :concl (< (deep x) 2) :g-bindings (gl::auto-bindings (:nat x 7)))
(gl::def-gl-thm strings-that-are-constant
  :hyp (booleanp b) :concl (and (equal (length "abc") 3) (equal (symbol-name 'b) "B") (equal (coerce "ab" 'list) '(#\a #\b)) (booleanp b))
  :g-bindings (gl::auto-bindings (:bool b)) :rule-classes nil)
