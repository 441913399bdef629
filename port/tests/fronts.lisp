(in-package "ACL2")
(include-book "centaur/gl/gl" :dir :system)

; Hypotheses that nearly cover, and what must not be put in front of them.
(defun digits-p (l) (if (atom l) (null l) (and (unsigned-byte-p 2 (car l)) (digits-p (cdr l)))))
(gl::def-gl-thm a-length-in-one-case ; not covered
  :hyp (and (if (booleanp b) (equal (len l) 2) (equal (len l) 3)) (digits-p l))
  :concl (< (nth 0 l) 2)
  :g-bindings '((b (:g-boolean . 0)) (l ((:g-integer 1 2 3) (:g-integer 4 5 6)))))
(gl::def-gl-thm a-length-behind-a-negation ; not covered
  :hyp (and (not (equal (len l) 2)) (digits-p l))
  :concl (equal l nil)
  :g-bindings '((l ((:g-integer 1 2 3) (:g-integer 4 5 6)))) :rule-classes nil)
(gl::def-gl-thm a-choice-that-has-more ; refuted at 3
  :hyp (and (or (equal x 1) (equal x 2) (and (equal x 3) (< y 2))) (natp y) (not (< 4 y)) (<= x 3) (natp x))
  :concl (< x 3)
  :g-bindings (gl::auto-bindings (:nat x 2) (:nat y 3)))
(defun small-p (x) (if (integerp x) (and (<= 0 x) (< x 8)) (equal x :none)))
(gl::def-gl-thm a-choice-in-a-predicate ; not covered
  :hyp (small-p x)
  :concl (equal x :none)
  :g-bindings '((x (:g-ite ((:g-boolean . 0) . (:g-integer 1 2 3 4)) . :none))) :rule-classes nil)
(gl::def-gl-thm a-bound-by-what-is-no-integer ; not covered
  :hyp (and (natp x) (< x y) (rationalp y) (< y 8))
  :concl (< x 4)
  :g-bindings (gl::auto-bindings (:nat x 3) (:nat y 3)))
(gl::def-gl-thm bounds-moved ; refuted at 7
  :hyp (and (integerp x) (< (+ -3 x) 5) (<= -1 (+ 1 x)))
  :concl (< x 7)
  :g-bindings (gl::auto-bindings (:int x 4)))
(gl::def-gl-thm replaced ; refuted
  :hyp (and (unsigned-byte-p 3 x) (equal y (+ 1 x)) (equal z (* 2 y)))
  :concl (< z 16)
  :g-bindings (gl::auto-bindings (:nat x 3)))
(gl::def-gl-thm replaced-by-itself ; not ported
  :hyp (and (unsigned-byte-p 3 x) (equal y (* 2 y)) (equal z y))
  :concl (equal z 0)
  :g-bindings (gl::auto-bindings (:nat x 3)))
(gl::def-gl-thm replaced-in-one-case ; not ported
  :hyp (and (unsigned-byte-p 3 x) (if (< x 4) (equal y x) (equal y 9)))
  :concl (equal y x)
  :g-bindings (gl::auto-bindings (:nat x 3)))
