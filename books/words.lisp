; Words of n bits, n from 1 to 64, as processors and C have them. A word without a sign is an integer from 0 to 2^n - 1, a word
; with one from -2^(n-1) to 2^(n-1) - 1. Each function takes any integers and looks at their low n bits alone, but for counts of
; places and for the conversions `u8` .. `s64` and the clamps, which say what they take. Functions whose names end in -u give
; words without a sign, those in -s words with one.
;
; ACL2 has no book of words under such names. Each function here is compared with what ACL2 gives for the formula beside it in
; books/tables/make.py, by loghead, logext, ash and logcount of unlimited integers.

(include-book "books/bitops")

; ---- any integer to a word: the low bits, without or with a sign
(defun u8 (x) (loghead 8 x))
(defun u16 (x) (loghead 16 x))
(defun u32 (x) (loghead 32 x))
(defun u64 (x) (loghead 64 x))
(defun s8 (x) (logext 8 x))
(defun s16 (x) (logext 16 x))
(defun s32 (x) (logext 32 x))
(defun s64 (x) (logext 64 x))

; ---- sums, differences, products that wrap around
(defun add-u (n x y) (loghead n (+ (loghead n x) (loghead n y))))
(defun sub-u (n x y) (loghead n (- (loghead n x) (loghead n y))))
(defun neg-u (n x) (loghead n (- (loghead n x))))
; By halves of 32 bits, so that no value on the way is wider than 97 bits.
(defun mul-u (n x y)
  (let* ((x (loghead n x))
         (y (loghead n y))
         (low (* (loghead 32 x) y))
         (high (loghead 32 (* (logtail 32 x) (loghead 32 y)))))
    (loghead n (+ low (ash high 32)))))
(defun add-s (n x y) (logext n (add-u n x y)))
(defun sub-s (n x y) (logext n (sub-u n x y)))
(defun neg-s (n x) (logext n (neg-u n x)))
(defun mul-s (n x y) (logext n (mul-u n x y)))

; ---- carries and overflow
; The bit carried out of the sum of two words and a bit; the bit borrowed by the difference of two words and a bit.
(defun carry-out (n x y c)
  (logbit n (+ (loghead n x) (loghead n y) (bfix c))))
(defun borrow-out (n x y b)
  (if (< (loghead n x) (+ (loghead n y) (bfix b))) 1 0))
; The high n bits of the product of two words without a sign, of at most 63 bits.
(defun mul-high-u (n x y)
  (logtail n (* (loghead n x) (loghead n y))))
; T where the sum, the difference, the product of two words with a sign is no such word.
(defun add-overflows (n x y)
  (not (signed-byte-p n (+ (logext n x) (logext n y)))))
(defun sub-overflows (n x y)
  (not (signed-byte-p n (- (logext n x) (logext n y)))))
(defun mul-overflows (n x y)
  (not (signed-byte-p n (* (logext n x) (logext n y)))))

; ---- saturation
; Any integer to the nearest word.
(defun clamp-u (n x) (unsigned-saturate-fn n x))
(defun clamp-s (n x) (logsat n x))
(defun add-saturated-u (n x y) (clamp-u n (+ (loghead n x) (loghead n y))))
(defun sub-saturated-u (n x y) (clamp-u n (- (loghead n x) (loghead n y))))
(defun add-saturated-s (n x y) (clamp-s n (+ (logext n x) (logext n y))))
(defun sub-saturated-s (n x y) (clamp-s n (- (logext n x) (logext n y))))

; ---- shifts by k places, k a natural number: all bits are gone from n places on
(defun shift-left (n x k)
  (if (< (nfix k) n)
      (ash (loghead (- n (nfix k)) x) (nfix k))
    0))
(defun shift-right (n x k)
  (if (< (nfix k) n)
      (logtail k (loghead n x))
    0))
; The sign comes in from above. A word with a sign.
(defun shift-right-s (n x k)
  (logtail (if (< (nfix k) n) k n) (logext n x)))

; ---- rotations by k places, k a natural number, which counts modulo n
(defun rotl (n x k) (rotate-left x n k))
(defun rotr (n x k) (rotate-right x n k))

; ---- bytes
(defun byte-swap-bytes (count x)
  (if (zp count)
      0
    (logior (ash (loghead 8 x) (* 8 (- count 1)))
            (byte-swap-bytes (- count 1) (logtail 8 x)))))
; The bytes of a word in the other order; n is a multiple of 8.
(defun byte-swap (n x) (byte-swap-bytes (floor n 8) x))
(defun bit-reverse (n x) (logrev n x))

; ---- counts
(defun ones (n x) (logcount (loghead n x)))
(defun leading-zeros (n x) (- n (integer-length (loghead n x))))
(defun trailing-zeros (n x)
  (if (equal (loghead n x) 0)
      n
    (bitscan-fwd (loghead n x))))
(defun leading-ones (n x) (leading-zeros n (lognot x)))
(defun trailing-ones (n x) (trailing-zeros n (lognot x)))
; T where exactly one bit is 1.
(defun is-power-of-two (n x)
  (let ((x (loghead n x)))
    (and (not (equal x 0))
         (equal (logand x (- x 1)) 0))))
