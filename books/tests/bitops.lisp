; Theorems about books/bitops.lisp at fixed widths.
(include-book "books/bitops")

(def-gl-thm bits-as-integers
  :hyp (and (unsigned-byte-p 1 a) (unsigned-byte-p 1 b) (unsigned-byte-p 1 c))
  :concl (and (bitp a)
              (equal (bfix a) a)
              (equal (zbp a) (equal a 0))
              (equal (bool->bit (bit->bool a)) a)
              (equal (bool-fix a) t)
              (equal (bool-fix (bit->bool a)) (bit->bool a))
              (equal (b-not a) (- 1 a))
              (equal (b-and a b) (logand a b))
              (equal (b-ior a b) (logior a b))
              (equal (b-xor a b) (logxor a b))
              (equal (b-eqv a b) (- 1 (logxor a b)))
              (equal (b-nand a b) (- 1 (logand a b)))
              (equal (b-nor a b) (- 1 (logior a b)))
              (equal (b-andc1 a b) (logand (- 1 a) b))
              (equal (b-andc2 a b) (logand a (- 1 b)))
              (equal (b-orc1 a b) (logior (- 1 a) b))
              (equal (b-orc2 a b) (logior a (- 1 b)))
              (equal (b-ite a b c) (logite (- a) b c)))
  :g-bindings (auto-bindings (:nat a 1) (:nat b 1) (:nat c 1)))

(def-gl-thm bits-are-two
  :hyp (signed-byte-p 8 x)
  :concl (and (equal (bitp x) (unsigned-byte-p 1 x))
              (bitp (bfix x))
              (equal (zbp x) (equal (bfix x) 0)))
  :g-bindings (auto-bindings (:int x 8)))

(def-gl-thm all-bits-at-once
  :hyp (and (signed-byte-p 32 x) (signed-byte-p 32 y))
  :concl (and (equal (logeqv x y) (logior (logand x y) (lognor x y)))
              (equal (binary-logeqv x y) (logeqv x y))
              (equal (lognand x y) (logior (lognot x) (lognot y)))
              (equal (lognor x y) (logand (lognot x) (lognot y)))
              (equal (logandc1 x y) (logandc2 y x))
              (equal (logorc1 x y) (logorc2 y x))
              (equal (logior (logandc1 x y) (logand x y)) y)
              (equal (logand (logorc1 x y) x) (logand x y))
              (equal (logtest x y) (not (equal (logand x y) 0))))
  :g-bindings (auto-bindings (:mix (:int x 32) (:int y 32))))

(def-gl-thm logite-chooses
  :hyp (and (signed-byte-p 16 x) (signed-byte-p 16 y) (signed-byte-p 16 z))
  :concl (equal (logite x y z) (logxor z (logand x (logxor y z))))
  :g-bindings (auto-bindings (:mix (:int x 16) (:int y 16) (:int z 16))))

(def-gl-thm lowest-bit-and-rest
  :hyp (signed-byte-p 64 x)
  :concl (and (equal (logcons (logcar x) (logcdr x)) x)
              (equal (+ (logcar x) (* 2 (logcdr x))) x))
  :g-bindings (auto-bindings (:int x 64)))

(def-gl-thm bit-by-its-place
  :hyp (and (unsigned-byte-p 6 i) (signed-byte-p 64 x))
  :concl (equal (logbit i x) (logcar (logtail i x)))
  :g-bindings (auto-bindings (:nat i 6) (:int x 64)))

(def-gl-thm masks
  :hyp (unsigned-byte-p 6 i)
  :concl (and (equal (logmask i) (- (ash 1 i) 1))
              (logmaskp (logmask i))
              (bitmaskp (logmask i)))
  :g-bindings (auto-bindings (:nat i 6)))

(def-gl-thm masks-are-told
  :hyp (unsigned-byte-p 32 x)
  :concl (and (equal (logmaskp x) (equal (logand x (+ x 1)) 0))
              (equal (bitmaskp x) (logmaskp x)))
  :g-bindings (auto-bindings (:nat x 32)))

(def-gl-thm heads-and-tails
  :hyp (signed-byte-p 32 x)
  :concl (and (equal (loghead 13 x) (mod x 8192))
              (equal (logtail 13 x) (floor x 8192))
              (equal (logapp 13 (loghead 13 x) (logtail 13 x)) x)
              (equal (logrpl 13 x (logtail 13 x))
                     (logapp 13 x (logtail 26 x))))
  :g-bindings (auto-bindings (:int x 32)))

(def-gl-thm extension
  :hyp (signed-byte-p 32 x)
  :concl (and (signed-byte-p 16 (logext 16 x))
              (equal (loghead 16 (logext 16 x)) (loghead 16 x))
              (equal (logext 32 x) x)
              (equal (logextu 32 16 x) (loghead 32 (logext 16 x))))
  :g-bindings (auto-bindings (:int x 32)))

(def-gl-thm complement-of-a-word
  :hyp (unsigned-byte-p 32 x)
  :concl (equal (lognotu 32 x) (- #xffffffff x))
  :g-bindings (auto-bindings (:nat x 32)))

(def-gl-thm saturation
  :hyp (signed-byte-p 20 x)
  :concl (and (signed-byte-p 16 (logsat 16 x))
              (implies (signed-byte-p 16 x) (equal (logsat 16 x) x))
              (implies (< 32767 x) (equal (logsat 16 x) 32767))
              (implies (< x -32768) (equal (logsat 16 x) -32768))
              (equal (signed-saturate-fn 16 x) (loghead 16 (logsat 16 x)))
              (equal (unsigned-saturate-fn 16 x) (max 0 (min x 65535))))
  :g-bindings (auto-bindings (:int x 20)))

(def-gl-thm shifts-in-a-word
  :hyp (unsigned-byte-p 32 x)
  :concl (and (equal (lshu 32 x 5) (mod (* 32 x) 4294967296))
              (equal (lshu 32 x -5) (floor x 32))
              (equal (ashu 32 x 5) (lshu 32 x 5))
              (equal (ashu 32 x -5) (loghead 32 (floor (logext 32 x) 32))))
  :g-bindings (auto-bindings (:nat x 32)))

(def-gl-thm reversal-twice
  :hyp (unsigned-byte-p 32 x)
  :concl (and (equal (logrev 32 (logrev 32 x)) x)
              (equal (logrev1 32 x 0) (logrev 32 x)))
  :g-bindings (auto-bindings (:nat x 32)))

(def-gl-thm reversal-turns-places
  :hyp (and (unsigned-byte-p 5 i) (unsigned-byte-p 32 x))
  :concl (equal (logbit i (logrev 32 x)) (logbit (- 31 i) x))
  :g-bindings (auto-bindings (:nat i 5) (:nat x 32)))

(def-gl-thm copies
  :hyp (unsigned-byte-p 8 x)
  :concl (equal (logrepeat 4 8 x) (* #x01010101 x))
  :g-bindings (auto-bindings (:nat x 8)))

(def-gl-thm parts-make-the-word
  :hyp (unsigned-byte-p 32 x)
  :concl (equal (logapp 8 (part-select-low-high x 0 7) (part-select-width-low x 24 8)) x)
  :g-bindings (auto-bindings (:nat x 32)))

(def-gl-thm a-part-is-installed
  :hyp (and (unsigned-byte-p 32 x) (unsigned-byte-p 8 v))
  :concl (let ((new (part-install-low-high v x 8 15)))
           (and (equal new (part-install-width-low v x 8 8))
                (equal new (update-nth-slice 8 1 v x))
                (equal (part-select-low-high new 8 15) v)
                (equal (nth-slice 8 1 new) v)
                (equal (nth-slice 8 0 new) (nth-slice 8 0 x))
                (equal (logtail 16 new) (logtail 16 x))))
  :g-bindings (auto-bindings (:nat v 8) (:nat x 32)))

(def-gl-thm one-bit-is-written
  :hyp (and (unsigned-byte-p 4 i) (unsigned-byte-p 4 j) (unsigned-byte-p 1 b) (signed-byte-p 16 x))
  :concl (and (equal (logbit j (install-bit i b x))
                     (if (equal i j) b (logbit j x)))
              (equal (install-bit i 1 x) (setbit i x))
              (equal (install-bit i 0 x) (clearbit i x))
              (equal (install-bit i (b-not (logbit i x)) x) (notbit i x)))
  :g-bindings (auto-bindings (:nat i 4) (:nat j 4) (:nat b 1) (:int x 16)))

(def-gl-thm one-bit-is-copied
  :hyp (and (unsigned-byte-p 4 i) (signed-byte-p 16 x) (signed-byte-p 16 y))
  :concl (equal (copybit i x y) (install-bit i (logbit i x) y))
  :g-bindings (auto-bindings (:nat i 4) (:mix (:int x 16) (:int y 16))))

(def-gl-thm rotation-back
  :hyp (and (unsigned-byte-p 5 k) (unsigned-byte-p 32 x))
  :concl (and (equal (rotate-right (rotate-left x 32 k) 32 k) x)
              (equal (rotate-left x 32 k) (rotate-right x 32 (- 32 k))))
  :g-bindings (auto-bindings (:nat k 5) (:nat x 32)))

(def-gl-thm rotation-of-a-wide-word
  :hyp (unsigned-byte-p 120 x)
  :concl (equal (rotate-left x 120 33)
                (logapp 33 (logtail 87 x) (loghead 87 x)))
  :g-bindings (auto-bindings (:nat x 120)))

(def-gl-thm scans
  :hyp (and (unsigned-byte-p 32 x) (not (equal x 0)))
  :concl (and (equal (ash 1 (bitscan-fwd x)) (logand x (- x)))
              (<= (ash 1 (bitscan-rev x)) x)
              (< x (ash 2 (bitscan-rev x))))
  :g-bindings (auto-bindings (:nat x 32)))

(def-gl-thm trailing-counts
  :hyp (and (signed-byte-p 32 x) (not (equal x 0)))
  :concl (and (equal (ash 1 (trailing-0-count x)) (logand x (- x)))
              (equal (trailing-1-count (lognot x)) (trailing-0-count x)))
  :g-bindings (auto-bindings (:int x 32)))

(def-gl-thm parity-of-the-count
  :hyp (unsigned-byte-p 32 x)
  :concl (equal (parity 32 x) (logand 1 (logcount x)))
  :g-bindings (auto-bindings (:nat x 32)))
