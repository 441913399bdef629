(in-package "ACL2")
(include-book "centaur/gl/gl" :dir :system)
(include-book "std/util/bstar" :dir :system)
(include-book "std/util/define" :dir :system)
(include-book "std/basic/defs" :dir :system)

; Forms that are easily taken for others: b*, mbe, flet, case.
(defun alu (op x)
  (b* ((op (mod op 4))
       ((when (< op 2)))
       ((unless (equal op 3)) (+ x 1))
       (?unused (cw "op ~x0~%" op)))
    0))
(gl::def-gl-thm when-without-a-value ; refuted
  :hyp (and (unsigned-byte-p 2 op) (unsigned-byte-p 3 x))
  :concl (equal (alu op x) (if (equal op 2) (+ x 1) (if (equal op 3) 0 nil)))
  :g-bindings (gl::auto-bindings (:nat op 2) (:nat x 3)))
(gl::def-gl-thm when-is-the-test
  :hyp (and (unsigned-byte-p 2 op) (unsigned-byte-p 3 x))
  :concl (equal (alu op x) (if (equal op 2) (+ x 1) (if (equal op 3) 0 t)))
  :g-bindings (gl::auto-bindings (:nat op 2) (:nat x 3)))
(defun divided (x y)
  (b* (((unless (posp y)) (mv :by-zero 0 0))
       (q (floor x y))
       (r (- x (* q y)))
       ((when (equal r 0)) (mv :exact q 0)))
    (mv :with-rest q r)))
(defun by-shape (x)
  (case-match x
    (('neg a) (- a))
    ((a b) (+ a b))
    ((a b . &) (* a b))
    (& 0)))
(gl::def-gl-thm division
  :hyp (and (unsigned-byte-p 5 x) (unsigned-byte-p 3 y))
  :concl (and (b* (((mv kind q r) (divided x y)))
                (case kind
                  (:by-zero (equal y 0))
                  (:exact (equal x (* q y)))
                  (t (and (< r y) (equal x (+ r (* q y)))))))
              (equal (by-shape (list x y 1)) (* y x)) (equal (by-shape (list 'neg x)) (- x)))
  :g-bindings (gl::auto-bindings (:nat x 5) (:nat y 3)))
(defun by-key (x) (case x (nil 1) ((nil 2) 2) ((t) 3) (otherwise 4)))
(gl::def-gl-thm keys-that-are-nil ; refuted
  :hyp (booleanp b) :concl (equal (by-key b) 4) :g-bindings (gl::auto-bindings (:bool b)))
(gl::def-gl-thm keys-that-are-nil-again
  :hyp (booleanp b) :concl (equal (by-key b) (if b 3 2)) :g-bindings (gl::auto-bindings (:bool b)))
(defun logical (x)
  (mbe :logic (let ((x (ifix x))) (prog2$ (er hard? 'logical "never ~x0" x) (+ 1 (ifix x))))
       :exec x))
(gl::def-gl-thm the-logic-counts ; refuted
  :hyp (unsigned-byte-p 4 x) :concl (equal (logical x) x) :g-bindings (gl::auto-bindings (:nat x 4)))
(defun tested (x) (if (mbt (natp x)) 1 2))
(defun believed (x) (if (mbt* (natp x)) 1 2))
(gl::def-gl-thm tests-in-the-logic ; refuted
  :hyp (booleanp b) :concl (equal (tested (if b -1 1)) 1) :g-bindings (gl::auto-bindings (:bool b)))
(gl::def-gl-thm tests-that-are-believed ; refuted
  :hyp (booleanp b) :concl (equal (believed (if b -1 1)) (tested (if b -1 1))) :g-bindings (gl::auto-bindings (:bool b)))
(gl::def-gl-thm a-string-reversed ; refuted
  :hyp (booleanp b) :concl (if b (not (equal (reverse "abc") "cba")) t) :g-bindings (gl::auto-bindings (:bool b)))
(gl::def-gl-thm a-string-reversed-there ; not ported
  :hyp (booleanp b) :concl (equal (reverse (if b "abc" "cba")) nil) :g-bindings (gl::auto-bindings (:bool b)))
(gl::def-gl-thm symbols-in-order ; refuted
  :hyp (booleanp b) :concl (alphorder (if b 'ab 'b) 'ac) :g-bindings (gl::auto-bindings (:bool b)))
(gl::def-gl-thm numbers-in-order ; refuted
  :hyp (unsigned-byte-p 3 x) :concl (lexorder (list x) (list 5)) :g-bindings (gl::auto-bindings (:nat x 3)))
