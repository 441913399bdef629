; Arithmetic of integers, under the names and with the values of ACL2. The universe of the book language has no ratios, so
; `rationalp` and `acl2-numberp` are `integerp` here. Where ACL2's value is a ratio, as that of `expt` for an exponent below 0, it
; is the pair of its numerator and denominator in lowest terms here: (expt 2 -3) is (1 . 8). It is no integer, and equal to none;
; different ratios are different pairs. It is no number either: sums, products and comparisons take it as 0, as they take each
; object that is none, and `consp` says T of it. So keep exponents natural by a hypothesis where the power is reckoned with.
; Values on the way stay within 128 bits: (expt 2 126) is the largest power of two that is a value; (expt 2 127) is width.

(defun acl2-numberp (x) (integerp x))
(defun rationalp (x) (integerp x))
(defun fix (x) (ifix x))
(defun rfix (x) (ifix x))
(defun pos-fix (x) (if (posp x) x 1))
(defun int= (i j) (equal i j))

; 1/n, which ACL2 writes (/ n), and 0 of 0.
(defun reciprocal (n)
  (let ((n (ifix n)))
    (cond ((<= (abs n) 1) n)
          ((< n 0) (cons -1 (- n)))
          (t (cons 1 n)))))

; r to the power i, where i counts as a natural number, and where it is any integer.
(defun natural-expt (r i)
  (if (zp i)
      1
    (* r (natural-expt r (- i 1)))))
(defun expt (r i)
  (if (< i 0)
      (reciprocal (natural-expt r (- i)))
    (natural-expt r i)))

; (expt 2 n) where n counts as a natural number, as one shift.
(defun expt2 (n) (ash 1 (nfix n)))

; (mod (expt r i) m), for natural i without the whole power. For i < 0 a ratio lies between -1 and 1, so its remainder is the ratio
; where m has its sign or is 0, and else the ratio and m.
(defun natural-mod-expt (r i m)
  (if (zp i)
      (mod 1 m)
    (mod (* r (natural-mod-expt r (- i 1) m)) m)))
(defun mod-expt (r i m)
  (let* ((ratio (if (< i 0) (expt r i) 0))
         (sign (car ratio))
         (below (cdr ratio)))
    (cond ((not (< i 0)) (natural-mod-expt r i m))
          ((atom ratio) (mod ratio m))
          ((< (* sign m) 0) (cons (+ sign (* m below)) below))
          (t ratio))))

(defun signum (x)
  (if (equal x 0) 0 (if (< x 0) -1 1)))

; The floor of i/j for natural i and j, 0 where j is 0.
(defun nonnegative-integer-quotient (i j)
  (if (zp j) 0 (if (zp i) 0 (floor i j))))

; i/j rounded up, and to the nearest integer (of two equally near ones, the even one). 0 where j is 0.
(defun ceiling (i j) (- (floor (- i) j)))
(defun round (i j)
  (let* ((quotient (floor i j))
         (twice (* 2 (mod i j)))
         (over (if (< j 0) (- j twice) (- twice j))))
    (if (equal (ifix j) 0)
        0
      (if (< over 0)
          quotient
        (if (and (equal over 0) (evenp quotient))
            quotient
          (+ quotient 1))))))

; floor and mod of what counts as integers.
(defun ifloor (i j) (floor (ifix i) (ifix j)))
(defun imod (i j) (mod (ifix i) (ifix j)))

; The distance of two integers.
(defun abs-diff (a b)
  (let ((a (ifix a)) (b (ifix b)))
    (if (<= b a) (- a b) (- b a))))
