; From the GL tutorial in ACL2's manual: the exercises 1a to 1f of topic "8. Exercises", and the bindings that topic "6. Writing
; :g-bindings forms" shows. Changed: of 1f the widest sum that stays within 128 bits; and a theorem around the bindings of topic 6.
(in-package "ACL2")
(include-book "centaur/gl/gl" :dir :system)

; 1a, and 1b with auto-bindings, with g-int, and by hand
(def-gl-thm plus-commutes-4
  :hyp (and (unsigned-byte-p 4 x)
            (unsigned-byte-p 4 y))
  :concl (equal (+ x y) (+ y x))
  :g-bindings (auto-bindings (:nat x 4) (:nat y 4)))

(def-gl-thm plus-commutes-4-g-int
  :hyp (and (unsigned-byte-p 4 x)
            (unsigned-byte-p 4 y))
  :concl (equal (+ x y) (+ y x))
  :g-bindings `((x ,(g-int 0 1 5))
                (y ,(g-int 5 1 5))))

(def-gl-thm plus-commutes-4-by-hand
  :hyp (and (unsigned-byte-p 4 x)
            (unsigned-byte-p 4 y))
  :concl (equal (+ x y) (+ y x))
  :g-bindings '((x (:g-integer 0 1 2 3 4))
                (y (:g-integer 5 6 7 8 9))))

; 1c and 1e: 20 bits, with the bits of x and y in turns
(def-gl-thm plus-commutes-20
  :hyp (and (unsigned-byte-p 20 x)
            (unsigned-byte-p 20 y))
  :concl (equal (+ x y) (+ y x))
  :g-bindings (auto-bindings (:mix (:nat x 20) (:nat y 20))))

(def-gl-thm plus-commutes-20-g-int
  :hyp (and (unsigned-byte-p 20 x)
            (unsigned-byte-p 20 y))
  :concl (equal (+ x y) (+ y x))
  :g-bindings `((x ,(g-int 0 2 21))
                (y ,(g-int 1 2 21))))

; 1f asks for 3,000 bits
(def-gl-thm plus-commutes-126
  :hyp (and (unsigned-byte-p 126 x)
            (unsigned-byte-p 126 y))
  :concl (equal (+ x y) (+ y x))
  :g-bindings (auto-bindings (:mix (:nat x 126) (:nat y 126))))

; The bindings of topic 6
(defun unit (flag a-bus b-bus mode opcode)
  (if (equal opcode #b0010100)
      (if (equal mode 'exact)
          (+ a-bus b-bus (if flag 1 0))
        (logxor a-bus b-bus))
    0))

(def-gl-thm unit-has-six-bits
  :hyp (and (booleanp flag)
            (signed-byte-p 5 a-bus)
            (signed-byte-p 5 b-bus)
            (or (equal mode 'exact) (equal mode 'fast))
            (equal opcode #b0010100))
  :concl (signed-byte-p 6 (unit flag a-bus b-bus mode opcode))
  :g-bindings '((flag   (:g-boolean . 0))
                (a-bus  (:g-integer 1 3 5 7 9))
                (b-bus  (:g-integer 2 4 6 8 10))
                (mode   (:g-ite (:g-boolean . 11) exact . fast))
                (opcode #b0010100)))
