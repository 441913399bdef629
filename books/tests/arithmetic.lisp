; Theorems about books/arithmetic.lisp at fixed widths.
(include-book "books/arithmetic")

(def-gl-thm numbers-are-integers
  :hyp (signed-byte-p 16 x)
  :concl (and (acl2-numberp x)
              (rationalp x)
              (equal (fix x) x)
              (equal (rfix x) x)
              (equal (pos-fix x) (max x 1))
              (int= x x))
  :g-bindings (auto-bindings (:int x 16)))

(def-gl-thm fix-of-a-boolean
  :hyp (booleanp x)
  :concl (and (not (acl2-numberp x))
              (not (rationalp x))
              (equal (fix x) 0)
              (equal (rfix x) 0)
              (equal (pos-fix x) 1))
  :g-bindings (auto-bindings (:boolean x)))

(def-gl-thm powers-of-two
  :hyp (unsigned-byte-p 5 i)
  :concl (and (equal (expt 2 i) (ash 1 i))
              (equal (expt2 i) (expt 2 i)))
  :g-bindings (auto-bindings (:nat i 5)))

(def-gl-thm cubes
  :hyp (signed-byte-p 5 x)
  :concl (and (equal (expt x 3) (* x (* x x)))
              (equal (mod-expt x 3 16) (mod (expt x 3) 16)))
  :g-bindings (auto-bindings (:int x 5)))

; Below 0 a power is a pair where it is no integer: no integer, and another for each exponent.
(def-gl-thm powers-below-0
  :hyp (and (unsigned-byte-p 3 n) (unsigned-byte-p 3 k))
  :concl (and (iff (integerp (expt 2 (- n 4))) (<= 4 n))
              (iff (equal (expt 2 (- n 4)) (expt 2 (- k 4))) (equal n k))
              (equal (integerp (mod-expt 2 (- n 4) 3)) (integerp (expt 2 (- n 4))))
              (equal (expt -1 (- n 4)) (if (evenp n) 1 -1))
              (equal (expt 0 (- n 4)) (if (equal n 4) 1 0)))
  :g-bindings (auto-bindings (:nat n 3) (:nat k 3)))

(def-gl-thm reciprocals-of-units
  :hyp (signed-byte-p 4 x)
  :concl (and (iff (integerp (reciprocal x)) (<= (abs x) 1))
              (equal (natural-expt (reciprocal (expt 2 -3)) 2) 0)
              (equal (natural-mod-expt x 3 7) (mod (natural-expt x 3) 7)))
  :g-bindings (auto-bindings (:int x 4)))

(def-gl-thm sign-times-size
  :hyp (signed-byte-p 16 x)
  :concl (equal (* (signum x) (abs x)) x)
  :g-bindings (auto-bindings (:int x 16)))

(def-gl-thm quotient-of-naturals
  :hyp (and (unsigned-byte-p 6 x) (unsigned-byte-p 4 y) (< 0 y))
  :concl (let ((quotient (nonnegative-integer-quotient x y)))
           (and (<= (* quotient y) x)
                (< x (* (+ quotient 1) y))))
  :g-bindings (auto-bindings (:nat y 4) (:nat x 6)))

(def-gl-thm ceiling-is-the-least-above
  :hyp (and (signed-byte-p 6 x) (unsigned-byte-p 4 y) (< 0 y))
  :concl (let ((quotient (ceiling x y)))
           (and (<= x (* quotient y))
                (< (* (- quotient 1) y) x)))
  :g-bindings (auto-bindings (:nat y 4) (:int x 6)))

(def-gl-thm round-is-nearest
  :hyp (and (signed-byte-p 6 x) (signed-byte-p 4 y) (not (equal y 0)))
  :concl (let ((twice (* 2 (abs-diff x (* (round x y) y)))))
           (and (<= twice (abs y))
                (implies (equal twice (abs y)) (evenp (round x y)))))
  :g-bindings (auto-bindings (:int y 4) (:int x 6)))

(def-gl-thm ifloor-and-imod-make-the-integer
  :hyp (and (signed-byte-p 6 x) (signed-byte-p 4 y))
  :concl (equal (+ (* (ifloor x y) y) (imod x y)) x)
  :g-bindings (auto-bindings (:int y 4) (:int x 6)))

(def-gl-thm abs-diff-is-a-distance
  :hyp (and (signed-byte-p 32 x) (signed-byte-p 32 y))
  :concl (and (equal (abs-diff x y) (abs-diff y x))
              (equal (abs-diff x y) (abs (- x y))))
  :g-bindings (auto-bindings (:mix (:int x 32) (:int y 32))))
