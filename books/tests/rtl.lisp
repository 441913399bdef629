; Theorems about books/rtl.lisp at fixed widths.
(include-book "books/rtl")

(def-gl-thm slices
  :hyp (unsigned-byte-p 32 x)
  :concl (and (equal (bits x 15 8) (logand (ash x -8) 255))
              (equal (bits x 31 0) x)
              (equal (bits x 3 4) 0)
              (equal (bits x 3 -2) (* 4 (bits x 3 0)))
              (equal (bitn x 5) (if (logbitp 5 x) 1 0))
              (equal (bitn x -1) 0)
              (bvecp (bits x 12 5) 8)
              (bvecp x 32)
              (equal (bvecp x 31) (equal (bitn x 31) 0))
              (equal (bvecp x -1) (equal x 0)))
  :g-bindings (auto-bindings (:nat x 32)))

(def-gl-thm slices-of-what-is-no-integer
  :hyp (booleanp x)
  :concl (and (equal (fl x) 0)
              (equal (bits x 7 0) 0)
              (equal (bitn x 0) 0)
              (equal (sgn x) 0)
              (equal (expo x) 0)
              (not (bvecp x 8)))
  :g-bindings (auto-bindings (:boolean x)))

(def-gl-thm a-bit-by-its-place
  :hyp (and (unsigned-byte-p 5 n) (signed-byte-p 32 x))
  :concl (and (equal (bitn x n) (bits x n n))
              (equal (equal (bitn x n) 1) (logbitp n x)))
  :g-bindings (auto-bindings (:nat n 5) (:int x 32)))

(def-gl-thm joined-and-parted
  :hyp (and (unsigned-byte-p 12 x) (unsigned-byte-p 20 y))
  :concl (let ((z (cat x 12 y 20)))
           (and (equal z (+ (* (ash 1 20) x) y))
                (equal z (binary-cat x 12 y 20))
                (equal (bits z 31 20) x)
                (equal (bits z 19 0) y)
                (equal (cat x 0 y 20) y)
                (equal (cat x -1 y 20) 0)))
  :g-bindings (auto-bindings (:nat x 12) (:nat y 20)))

(def-gl-thm a-slice-is-replaced
  :hyp (and (unsigned-byte-p 16 x) (unsigned-byte-p 8 y))
  :concl (let ((z (setbits x 16 11 4 y)))
           (and (equal (bits z 15 12) (bits x 15 12))
                (equal (bits z 11 4) y)
                (equal (bits z 3 0) (bits x 3 0))
                (bvecp z 16)))
  :g-bindings (auto-bindings (:nat x 16) (:nat y 8)))

(def-gl-thm a-bit-is-replaced
  :hyp (and (unsigned-byte-p 4 n) (unsigned-byte-p 16 x) (unsigned-byte-p 1 y))
  :concl (let ((z (setbitn x 16 n y)))
           (and (equal (bitn z n) y)
                (equal (setbitn z 16 n (bitn x n)) x)))
  :g-bindings (auto-bindings (:nat n 4) (:nat y 1) (:nat x 16)))

(def-gl-thm sign-and-magnitude
  :hyp (signed-byte-p 16 x)
  :concl (and (equal (fl x) x)
              (equal (* (sgn x) (abs x)) x)
              (implies (not (equal x 0))
                       (and (<= (ash 1 (expo x)) (abs x))
                            (< (abs x) (ash 2 (expo x))))))
  :g-bindings (auto-bindings (:int x 16)))
