; A signed adder of 16 bits that saturates: what leaves the range becomes its end.
(defconst *most* 32767)
(defconst *least* -32768)

(defun saturated (x)
  (cond ((< *most* x) *most*)
        ((< x *least*) *least*)
        (t x)))

(defun saturating-add (x y)
  (saturated (+ x y)))

; The answer is always a word of 16 bits.
(def-gl-thm sum-stays-in-range
  :hyp (and (signed-byte-p 16 x) (signed-byte-p 16 y))
  :concl (signed-byte-p 16 (saturating-add x y))
  :g-bindings (auto-bindings (:mix (:int x 16) (:int y 16))))

; Sums that fit are exact. The bits of a summand stand beside those of the other in the order of the diagrams.
(def-gl-thm sums-that-fit-are-exact
  :hyp (and (signed-byte-p 16 x) (signed-byte-p 16 y) (signed-byte-p 16 (+ x y)))
  :concl (equal (saturating-add x y) (+ x y))
  :g-bindings (auto-bindings (:mix (:int x 16) (:int y 16))))
