; Bit vectors as ACL2's library rtl has them, under the names and with the values of its books rtl/rel11/lib/defs and rac, package
; RTL. What is no integer counts as 0, and there are no ratios: `fl` is the integer itself, and a number of bits below 0 leaves none.
; Values on the way stay within 128 bits.

(include-book "books/bitops")

(defun fl (x) (ifix x))

; x has no bits but those below k.
(defun bvecp (x k) (if (natp k) (unsigned-byte-p k x) (equal x 0)))

; The bits of x from i down to j, and bit n of x. For j < 0 they stand above -j zeros.
(defun bits (x i j)
  (if (and (integerp i) (integerp j) (<= j i) (<= 0 i))
      (if (<= 0 j)
          (part-select-low-high x j i)
        (ash (loghead (+ 1 i) x) (- j)))
    0))
(defun bitn (x n) (bits x n n))

; The low m bits of x above the low n bits of y. In ACL2 `cat` is a macro of any count of pairs; here it is a function of two:
; (cat x m y n z p) is (cat x m (cat y n z p) (+ n p)).
(defun binary-cat (x m y n)
  (if (and (natp m) (natp n))
      (logior (ash (bits x (- m 1) 0) n) (bits y (- n 1) 0))
    0))
(defun cat (x m y n) (binary-cat x m y n))

; x as a word of w bits, its bits from i down to j, and its bit n, replaced by the low ones of y.
(defun setbits (x w i j y)
  (binary-cat (bits x (- w 1) (+ 1 i))
              (- (- w 1) i)
              (binary-cat (bits y (- i j) 0) (+ 1 (- i j)) (bits x (- j 1) 0) j)
              (+ 1 i)))
(defun setbitn (x w n y) (setbits x w n n y))

; The place of the highest 1 of the magnitude, 0 of 0; and the sign, -1, 0 or 1. Not of -2^127, whose negation is wide.
(defun expo (x)
  (if (equal (ifix x) 0) 0 (- (integer-length (abs x)) 1)))
(defun sgn (x)
  (if (equal (ifix x) 0) 0 (if (< x 0) -1 1)))
