(in-package "ACL2")
(include-book "centaur/gl/gl" :dir :system)

; Names that are nearly the same: of packages that import, with another's prefix in them, with bars, of the language's own macros.
(gl::def-gl-thm imported-and-not ; refuted: two of the four are one symbol
  :hyp (booleanp b)
  :concl (equal (equal (if b 's::common-name 's::other-name) 'common-name) (equal (if b 'u::common-name 'u::only-here) 'only-here))
  :g-bindings (gl::auto-bindings (:bool b)))
(defun f (x) (+ x 1))
(defun s::f (x) (+ x 2))
(defun s-f (x) (+ x 3))
(defun s-u::f (x) (+ x 4))
(defun s::u-f (x) (+ x 5))
(defun |S::F| (x) (+ x 6))
(defun |f| (x) (+ x 7))
(defun f$inline (x) (+ x 8))
(defun f-2 (x) (+ x 9))
(defun |F-2$INLINE| (x) (+ x 10))
(gl::def-gl-thm ten-functions ; refuted at 3 alone
  :hyp (unsigned-byte-p 4 x)
  :concl (equal (list (f x) (s::f x) (s-f x) (s-u::f x) (s::u-f x) (|S::F| x) (|f| x) (f$inline x) (f-2 x) (|F-2$INLINE| x))
                (if (equal x 3) (list 4 5 6 7 8 9 10 11 13 12) (list (+ 1 x) (+ 2 x) (+ 3 x) (+ 4 x) (+ 5 x) (+ 6 x) (+ 7 x) (+ 8 x) (+ 9 x) (+ 10 x))))
  :g-bindings (gl::auto-bindings (:nat x 4)))
(gl::def-gl-thm ten-symbols ; refuted
  :hyp (unsigned-byte-p 3 x)
  :concl (let ((s (case x (0 's::a) (1 's-a) (2 '|s-A|) (3 '|S::A|) (4 ':a) (5 '|:A|) (6 's-u::a) (otherwise 's::u-a))))
           (iff (member s '(a s-u::u-a |S-U::A| :a)) nil))
  :g-bindings (gl::auto-bindings (:nat x 3)))
(gl::def-gl-thm five-variables ; refuted
  :hyp (and (unsigned-byte-p 2 x) (unsigned-byte-p 2 s::x) (unsigned-byte-p 2 s-x) (unsigned-byte-p 2 |x|) (unsigned-byte-p 2 |X
(x|))
  :concl (equal (- (+ x s::x s-x |x|) |X
(x|) (+ x s::x x |x|))
  :g-bindings (gl::auto-bindings (:nat x 2) (:nat s::x 2) (:nat s-x 2) (:nat |x| 2) (:nat |X
(x| 2)))
; Functions that are named as the language's macros, and as what the exporter itself may write.
(defun s::if (x y z) (declare (ignore y)) (list x z))
(defun s::quote-of (x) x)
(defun s::and (x y) (if x nil y))
(defun s::cond (x) (+ x 1))
(defun s::let (x y) (+ x y))
(defun s::list (x) x)
(defun s::case (x) (- x))
(defun s::1+ (x) (+ 2 x))
(defun quotient (x y) (- x y))
(defun power-of-2 (x) (* 2 x))
(defun beyond-the-language (x) x)
(defun count-down-counted (x y) (+ x y))
(defun count-down (x) (declare (xargs :measure (nfix (- x 3)))) (if (and (integerp x) (< 3 x)) (+ 1 (count-down (- x 2))) 0))
(gl::def-gl-thm named-as-macros ; refuted at 2 alone
  :hyp (unsigned-byte-p 3 x)
  :concl (equal (list (s::if x 7 8) (s::and x 5) (s::cond x) (s::let x 1) (s::list x) (s::case x) (s::1+ x))
                (list (list x 8) (if x nil 5) (+ 1 x) (+ 1 x) (if (equal x 2) (list x) x) (- x) (+ 2 x)))
  :g-bindings (gl::auto-bindings (:nat x 3)))
(gl::def-gl-thm named-as-helpers ; refuted at 5 alone
  :hyp (unsigned-byte-p 3 x)
  :concl (and (equal (quotient (* 3 x) 3) (- (* 3 x) 3)) (equal (/ (* 4 x) 4) x) (equal (power-of-2 x) (+ x x)) (equal (expt 2 x) (ash 1 x))
              (equal (beyond-the-language x) (if (equal x 5) 6 x)) (equal (count-down-counted x 1) (+ x 1)) (<= (count-down x) 3))
  :g-bindings (gl::auto-bindings (:nat x 3)))
; Names of theorems.
(gl::def-gl-thm |a (theorem "of
two lines| ; refuted
  :hyp (booleanp b) :concl b :g-bindings (gl::auto-bindings (:bool b)) :rule-classes nil)
(gl::def-gl-thm || :hyp (booleanp b) :concl (iff b b) :g-bindings (gl::auto-bindings (:bool b)) :rule-classes nil)
(gl::def-gl-thm s::ten-functions :hyp (booleanp b) :concl (iff b b) :g-bindings (gl::auto-bindings (:bool b)) :rule-classes nil)
; A name of several lines where a comment tells it.
(gl::def-gl-thm told-in-a-comment ; not covered
  :hyp (and (integerp |X
(DEF-GL-THM NEVER-STATED :HYP T :CONCL NIL :G-BINDINGS NIL) ;|) (unsigned-byte-p 3 x))
  :concl (equal |X
(DEF-GL-THM NEVER-STATED :HYP T :CONCL NIL :G-BINDINGS NIL) ;| x)
  :g-bindings (gl::auto-bindings (:nat x 3) (:nat |X
(DEF-GL-THM NEVER-STATED :HYP T :CONCL NIL :G-BINDINGS NIL) ;| 3)) :rule-classes nil)
