(in-package "ACL2")
(include-book "centaur/gl/gl" :dir :system)

; A book in which most theorems cannot be ported. All reasons are told at once.
(defun third-of (x) (/ (+ 1 (* 3 x)) 3))
(defstub unknown (x) t)
(defun named (x) (symbol-name x))
(defun uses-several (x)
  (list (third-of x)
        (unknown x)
        (unknown x)))
(gl::def-gl-thm thirds
  :hyp (unsigned-byte-p 4 x) :concl (equal (uses-several x) (uses-several x)) :g-bindings (gl::auto-bindings (:nat x 4)))
(gl::def-gl-thm names
  :hyp (booleanp x) :concl (stringp (named x)) :g-bindings '((x (:g-boolean . 0))))
(gl::def-gl-thm shapes
  :hyp (unsigned-byte-p 4 x)
  :concl (equal x x)
  :g-bindings '((x (:g-var . x))))
(gl::def-gl-thm too-wide
  :hyp (unsigned-byte-p 200 x)
  :concl (equal (logand x x) x)
  :g-bindings (gl::auto-bindings (:nat x 200)))
(gl::def-gl-thm too-large
  :hyp (unsigned-byte-p 4 x)
  :concl (< x (expt 2 200))
  :g-bindings (gl::auto-bindings (:nat x 4)))
(gl::def-gl-thm unbound
  :hyp (unsigned-byte-p 4 x)
  :concl (equal x y)
  :g-bindings (gl::auto-bindings (:nat x 4)))
(gl::def-gl-thm covered-there-alone
  :hyp (and (integerp x) (<= (* x x) 9))
  :concl (< x 4)
  :g-bindings (gl::auto-bindings (:int x 3)))
(gl::def-gl-thm the-one-that-is-ported
  :hyp (unsigned-byte-p 4 x) :concl (< x 16) :g-bindings (gl::auto-bindings (:nat x 4)))
(gl::def-gl-param-thm cases-with-two-names
  :hyp (unsigned-byte-p 2 x)
  :concl (< x 4)
  :param-hyp (equal x low)
  :param-bindings '((((low 0)) ((x (:g-integer 0 1 2))))
                    (((high 1)) ((x (:g-integer 0 1 2)))))
  :cov-bindings '((x (:g-integer 0 1 2))))
