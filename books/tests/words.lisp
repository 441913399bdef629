; Theorems about books/words.lisp at fixed widths.
(include-book "books/words")

(def-gl-thm conversions
  :hyp (signed-byte-p 72 x)
  :concl (and (unsigned-byte-p 8 (u8 x))
              (unsigned-byte-p 16 (u16 x))
              (unsigned-byte-p 32 (u32 x))
              (unsigned-byte-p 64 (u64 x))
              (equal (s8 x) (s8 (u8 x)))
              (equal (s16 x) (s16 (u16 x)))
              (equal (s32 x) (s32 (u32 x)))
              (equal (s64 x) (s64 (u64 x)))
              (signed-byte-p 8 (s8 x))
              (signed-byte-p 64 (s64 x)))
  :g-bindings (auto-bindings (:int x 72)))

(def-gl-thm sums-wrap-around
  :hyp (and (unsigned-byte-p 64 x) (unsigned-byte-p 64 y))
  :concl (and (equal (add-u 64 x y) (- (+ x y) (* (carry-out 64 x y 0) 18446744073709551616)))
              (equal (sub-u 64 x y) (+ (- x y) (* (borrow-out 64 x y 0) 18446744073709551616)))
              (equal (sub-u 64 (add-u 64 x y) y) x)
              (equal (add-u 64 x (neg-u 64 x)) 0)
              (equal (carry-out 64 x y 1) (if (< (+ x y) 18446744073709551615) 0 1))
              (equal (borrow-out 64 x y 1) (if (< y x) 0 1)))
  :g-bindings (auto-bindings (:mix (:nat x 64) (:nat y 64))))

(def-gl-thm sums-with-signs
  :hyp (and (signed-byte-p 32 x) (signed-byte-p 32 y))
  :concl (and (equal (add-overflows 32 x y) (not (equal (add-s 32 x y) (+ x y))))
              (equal (sub-overflows 32 x y) (not (equal (sub-s 32 x y) (- x y))))
              (equal (neg-s 32 x) (sub-s 32 0 x)))
  :g-bindings (auto-bindings (:mix (:int x 32) (:int y 32))))

(def-gl-thm products-of-bytes
  :hyp (and (unsigned-byte-p 8 x) (unsigned-byte-p 8 y))
  :concl (and (equal (mul-u 8 x y) (loghead 8 (* x y)))
              (equal (logapp 8 (mul-u 8 x y) (mul-high-u 8 x y)) (* x y)))
  :g-bindings (auto-bindings (:mix (:nat x 8) (:nat y 8))))

(def-gl-thm products-of-bytes-with-signs
  :hyp (and (signed-byte-p 6 x) (signed-byte-p 6 y))
  :concl (equal (mul-overflows 6 x y) (not (equal (mul-s 6 x y) (* x y))))
  :g-bindings (auto-bindings (:mix (:int x 6) (:int y 6))))

; A wide product is never made: (* x y) of two words of 64 bits could be wider than 128 bits.
(def-gl-thm products-by-constants
  :hyp (unsigned-byte-p 64 x)
  :concl (and (equal (mul-u 64 x 5) (add-u 64 x (shift-left 64 x 2)))
              (equal (mul-u 64 5 x) (mul-u 64 x 5)))
  :g-bindings (auto-bindings (:nat x 64)))

(def-gl-thm saturated-sums
  :hyp (and (unsigned-byte-p 32 x) (unsigned-byte-p 32 y))
  :concl (and (equal (add-saturated-u 32 x y) (if (equal (carry-out 32 x y 0) 1) #xffffffff (add-u 32 x y)))
              (equal (sub-saturated-u 32 x y) (if (equal (borrow-out 32 x y 0) 1) 0 (sub-u 32 x y)))
              (equal (clamp-u 32 (+ x y)) (add-saturated-u 32 x y)))
  :g-bindings (auto-bindings (:mix (:nat x 32) (:nat y 32))))

(def-gl-thm saturated-sums-with-signs
  :hyp (and (signed-byte-p 32 x) (signed-byte-p 32 y))
  :concl (and (implies (not (add-overflows 32 x y)) (equal (add-saturated-s 32 x y) (+ x y)))
              (implies (add-overflows 32 x y) (equal (add-saturated-s 32 x y) (if (< x 0) -2147483648 2147483647)))
              (implies (not (sub-overflows 32 x y)) (equal (sub-saturated-s 32 x y) (- x y)))
              (equal (clamp-s 32 x) x))
  :g-bindings (auto-bindings (:mix (:int x 32) (:int y 32))))

(def-gl-thm shifts
  :hyp (and (unsigned-byte-p 6 k) (unsigned-byte-p 32 x))
  :concl (and (equal (shift-right 32 x k) (ash x (- k)))
              (equal (shift-left 32 x k) (loghead 32 (ash x k)))
              (equal (shift-right-s 32 x k) (ash (s32 x) (- k))))
  :g-bindings (auto-bindings (:nat k 6) (:nat x 32)))

(def-gl-thm rotations
  :hyp (and (unsigned-byte-p 5 k) (unsigned-byte-p 32 x))
  :concl (and (equal (rotl 32 x k) (logior (shift-left 32 x k) (shift-right 32 x (- 32 k))))
              (equal (rotr 32 (rotl 32 x k) k) x))
  :g-bindings (auto-bindings (:nat k 5) (:nat x 32)))

(def-gl-thm bytes
  :hyp (unsigned-byte-p 64 x)
  :concl (and (equal (byte-swap 64 (byte-swap 64 x)) x)
              (equal (nth-slice 8 0 (byte-swap 64 x)) (nth-slice 8 7 x))
              (equal (byte-swap-bytes 8 x) (byte-swap 64 x))
              (equal (byte-swap 16 x) (rotl 16 x 8))
              (equal (bit-reverse 64 (bit-reverse 64 x)) x))
  :g-bindings (auto-bindings (:nat x 64)))

(def-gl-thm counts
  :hyp (unsigned-byte-p 32 x)
  :concl (and (equal (ones 32 x) (logcount x))
              (equal (leading-zeros 32 x) (trailing-zeros 32 (bit-reverse 32 x)))
              (equal (leading-ones 32 x) (leading-zeros 32 (lognot x)))
              (equal (trailing-ones 32 x) (trailing-zeros 32 (lognot x)))
              (equal (is-power-of-two 32 x) (equal (logcount x) 1)))
  :g-bindings (auto-bindings (:nat x 32)))
