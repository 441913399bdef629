; Bits of integers in two's complement, under the names and with the values of ACL2's books ihs/basic-definitions and
; centaur/bitops. A size, a position or a count of places that is no natural number counts as 0, and what is no integer
; counts as 0, as in ACL2's logic. Sizes are at most 127, since values on the way stay within 128 bits.
;
; Each function is written so that with literal sizes it costs no bits beyond its result's: masks by logand, never by mod.

; ---- single bits
(defun bitp (x) (or (equal x 0) (equal x 1)))
(defun bfix (x) (if (equal x 1) 1 0))
(defun zbp (x) (not (equal x 1)))
(defun bool->bit (x) (if x 1 0))
(defun bit->bool (x) (equal x 1))
(defun bool-fix (x) (if x t nil))

(defun b-not (i) (if (zbp i) 1 0))
(defun b-and (i j) (if (zbp i) 0 (bfix j)))
(defun b-ior (i j) (if (zbp i) (bfix j) 1))
(defun b-xor (i j) (if (zbp i) (bfix j) (b-not j)))
(defun b-eqv (i j) (if (zbp i) (b-not j) (bfix j)))
(defun b-nand (i j) (if (zbp i) 1 (b-not j)))
(defun b-nor (i j) (if (zbp i) (b-not j) 0))
(defun b-andc1 (i j) (if (zbp i) (bfix j) 0))
(defun b-andc2 (i j) (if (zbp i) 0 (b-not j)))
(defun b-orc1 (i j) (if (zbp i) 1 (bfix j)))
(defun b-orc2 (i j) (if (zbp i) (b-not j) 1))
(defun b-ite (test then else) (if (zbp test) (bfix else) (bfix then)))

; ---- all bits at once
(defun binary-logeqv (i j) (lognot (logxor i j)))
(defun logeqv (i j) (binary-logeqv i j))
(defun lognand (i j) (lognot (logand i j)))
(defun lognor (i j) (lognot (logior i j)))
(defun logandc1 (i j) (logand (lognot i) j))
(defun logandc2 (i j) (logand i (lognot j)))
(defun logorc1 (i j) (logior (lognot i) j))
(defun logorc2 (i j) (logior i (lognot j)))
(defun logtest (i j) (not (equal (logand i j) 0)))
(defun logite (test then else)
  (logior (logand test then) (logand (lognot test) else)))

; ---- the lowest bit and the rest
(defun logcar (i) (logand i 1))
(defun logcdr (i) (ash i -1))
(defun logcons (b i) (logior (bfix b) (ash i 1)))
(defun logbit (pos i) (if (logbitp pos i) 1 0))

; ---- masks, parts, extensions
(defun logmask (size) (lognot (ash -1 (nfix size))))
(defun logmaskp (i)
  (and (integerp i)
       (<= 0 i)
       (equal i (logmask (integer-length i)))))
(defun bitmaskp (i) (logmaskp (ifix i)))

(defun loghead (size i) (logand i (logmask size)))
(defun logtail (pos i) (ash i (- (nfix pos))))
(defun logapp (size i j)
  (logior (loghead size i) (ash j (nfix size))))
(defun logrpl (size i j) (logapp size i (logtail size j)))
(defun logext (size i)
  (logapp (- size 1) i (if (logbitp (- size 1) i) -1 0)))
(defun logextu (final-size ext-size i)
  (loghead final-size (logext ext-size i)))
(defun lognotu (size i) (loghead size (lognot i)))
(defun logsat (size i)
  (let* ((greatest (logmask (- size 1)))
         (least (lognot greatest))
         (i (ifix i)))
    (if (<= greatest i)
        greatest
      (if (<= i least) least i))))

; Shifts inside a word of size bits: arithmetic (the word has a sign) and logical (it has none). (ash i cnt) has to stay within
; 128 bits, so size + cnt is at most 127.
(defun ashu (size i cnt) (loghead size (ash (logext size i) cnt)))
(defun lshu (size i cnt) (loghead size (ash (loghead size i) cnt)))

(defun logrev1 (size i j)
  (if (zp size)
      (ifix j)
    (logrev1 (- size 1) (logcdr i) (logcons (logcar i) j))))
(defun logrev (size i) (logrev1 size i 0))

; `times` copies of the low `width` bits of data, one above the other.
(defun logrepeat (times width data)
  (if (zp times)
      0
    (logapp width data (logrepeat (- times 1) width data))))

; ---- parts of words: what ACL2's macros part-select and part-install mean with :low and :high, and with :low and :width
(defun part-select-width-low (x width low)
  (loghead width (logtail low x)))
(defun part-select-low-high (x low high)
  (part-select-width-low x (+ 1 (- high low)) low))
(defun part-install-width-low (val x width low)
  (logior (logand x (lognot (ash (logmask width) (nfix low))))
          (ash (loghead width val) (nfix low))))
(defun part-install-low-high (val x low high)
  (part-install-width-low val x (+ 1 (- high low)) low))

(defun nth-slice (size n x)
  (loghead size (logtail (* (nfix size) (nfix n)) x)))
(defun update-nth-slice (size n v x)
  (part-install-width-low v x size (* (nfix size) (nfix n))))

; ---- one bit of a word
(defun install-bit (n val x)
  (logior (logand x (lognot (ash 1 (nfix n))))
          (ash (bfix val) (nfix n))))
(defun setbit (n x) (logior (ash 1 (nfix n)) x))
(defun clearbit (n x) (logand (lognot (ash 1 (nfix n))) x))
(defun notbit (n x) (logxor (ash 1 (nfix n)) x))
(defun copybit (n from to)
  (if (logbitp n from) (setbit n to) (clearbit n to)))

; ---- rotations of a word of width bits; places counts modulo the width, and a width of 0 gives 0
(defun rotate-left (x width places)
  (let* ((width (nfix width))
         (x (loghead width x))
         (places (mod (nfix places) width)))
    (if (zp width)
        0
      (logior (ash (loghead (- width places) x) places)
              (logtail (- width places) x)))))
(defun rotate-right (x width places)
  (let* ((width (nfix width))
         (x (loghead width x))
         (places (mod (nfix places) width)))
    (if (zp width)
        0
      (logior (logtail places x)
              (ash (loghead places x) (- width places))))))

; ---- scans and counts
; The place of the lowest and of the highest 1 of a natural number, 0 where there is none.
(defun bitscan-fwd (src)
  (if (zp src)
      0
    (if (logbitp 0 src)
        0
      (+ 1 (bitscan-fwd (ash src -1))))))
(defun bitscan-rev (src)
  (if (zp src) 0 (- (integer-length src) 1)))

; How many zeros, or ones, stand below the lowest 1, or 0, of an integer; 0 of 0, or of -1. Not of -2^127, whose negation is wide.
(defun trailing-0-count (x)
  (if (integerp x)
      (bitscan-fwd (if (< x 0) (- x) x))
    0))
(defun trailing-1-count (x) (trailing-0-count (lognot x)))

; 1 where an odd number of the low n bits of x are 1.
(defun parity (n x)
  (if (zp n)
      0
    (logxor (logand x 1) (parity (- n 1) (ash x -1)))))

; ---- saturation to a word of n bits. Both give words without a sign, as ACL2's do: the signed one is the word's bits.
(defun unsigned-saturate-fn (n x)
  (let ((greatest (logmask n)) (x (ifix x)))
    (if (<= greatest x)
        greatest
      (if (<= x 0) 0 x))))
(defun signed-saturate-fn (n x)
  (if (zp n) 0 (loghead n (logsat n x))))
