(in-package "ACL2")
(include-book "centaur/gl/gl" :dir :system)

; Predicates that cover does not see until they are opened.
(defconst *limit* (expt 2 10))
(defun n10p (x) (and (integerp x) (<= 0 x) (< x *limit*)))
(defun canonical-p (x) (signed-byte-p 12 x))
(defun bvecp (x k) (and (integerp x) (<= 0 x) (< x (expt 2 k))))
(defun pair-p (p) (and (consp p) (n10p (car p)) (canonical-p (cdr p))))

(gl::def-gl-thm a-range
  :hyp (and (n10p x) (canonical-p y))
  :concl (< (+ x y) (+ *limit* 2048))
  :g-bindings (gl::auto-bindings (:mix (:nat x 11) (:int y 12))))
(gl::def-gl-thm a-width
  :hyp (and (bvecp x 6) (or (equal n 1) (equal n 2)))
  :concl (< (ash x n) 256)
  :g-bindings (gl::auto-bindings (:nat x 6) (:nat n 2)))
(gl::def-gl-thm inside-a-pair
  :hyp (pair-p p)
  :concl (< (logand 7 (car p)) 8)
  :g-bindings '((p ((:g-integer 0 1 2 3 4 5 6 7 8 9 10) . (:g-integer 11 12 13 14 15 16 17 18 19 20 21 22)))))
(gl::def-gl-thm a-bound-of-a-sum
  :hyp (and (natp x) (<= (+ 4 x) 256))
  :concl (unsigned-byte-p 8 (+ 3 x))
  :g-bindings (gl::auto-bindings (:nat x 8)))
(gl::def-gl-thm seen-as-it-is
  :hyp (and (n10p x) (unsigned-byte-p 10 x))
  :concl (<= x 1023)
  :g-bindings (gl::auto-bindings (:nat x 10)))
(defun bit-list-p (l) (if (atom l) (null l) (and (bitp (car l)) (bit-list-p (cdr l)))))
(gl::def-gl-thm a-list-of-known-length
  :hyp (and (bit-list-p l) (equal (len l) 4))
  :concl (< (+ (* 8 (nth 3 l)) (* 4 (nth 2 l)) (* 2 (nth 1 l)) (nth 0 l)) 16)
  :g-bindings '((l ((:g-integer 0 1) (:g-integer 2 3) (:g-integer 4 5) (:g-integer 6 7)))))
(gl::def-gl-thm a-list-that-is-not-even ; refuted
  :hyp (and (bit-list-p l) (= 3 (len l)))
  :concl (equal (nth 2 l) 0)
  :g-bindings '((l ((:g-integer 0 1) (:g-integer 2 3) (:g-integer 4 5)))))
(gl::def-gl-thm through-another-bound
  :hyp (and (natp n) (natp m) (< n m) (<= m 32))
  :concl (< n 32)
  :g-bindings (gl::auto-bindings (:nat n 6) (:nat m 6)))
(gl::def-gl-thm no-integer-there ; not covered: x may be 1/2
  :hyp (and (rationalp x) (<= 0 x) (<= x 15))
  :concl (integerp x)
  :g-bindings (gl::auto-bindings (:nat x 4)))
(gl::def-gl-thm a-bound-that-is-not-seen ; not covered
  :hyp (and (integerp x) (< 0 x) (< (* 2 x) 9))
  :concl (< x 4)
  :g-bindings (gl::auto-bindings (:int x 5)))
