(in-package "ACL2")
(include-book "centaur/gl/gl" :dir :system)

; Measures that the table has not: a step through a let, a constant bound, and none of these.
(defun bits-set (x n)
  (declare (xargs :measure (acl2-count n)))
  (if (zp n) 0
    (let* ((n (- n 1)) (rest (bits-set x n)))
      (+ rest (if (logbitp n x) 1 0)))))
(defun last-of (l)
  (if (atom l) nil
    (let ((rest (cdr l)))
      (if (consp rest) (last-of rest) (car l)))))
(defun zeros-from (i x)
  (declare (xargs :measure (nfix (- 8 i))))
  (if (and (natp i) (< i 8))
      (if (logbitp i x) 0 (+ 1 (zeros-from (+ 1 i) x)))
    0))
(defun highest (x)
  (declare (xargs :measure (integer-length x) :hints (("Goal" :in-theory (enable integer-length)))))
  (if (or (not (integerp x)) (<= x 0)) 0 (+ 1 (highest (ash x -1)))))
(defun steps (x y)
  (declare (xargs :measure (+ (nfix x) (nfix y))))
  (cond ((or (zp x) (zp y)) 0)
        ((<= x y) (+ 1 (steps x (- y x))))
        (t (+ 1 (steps (- x y) y)))))

(gl::def-gl-thm sets
  :hyp (unsigned-byte-p 6 x) :concl (equal (bits-set x 6) (logcount x)) :g-bindings (gl::auto-bindings (:nat x 6)))
(gl::def-gl-thm lasts
  :hyp (unsigned-byte-p 3 x) :concl (equal (last-of (list 1 2 x)) x) :g-bindings (gl::auto-bindings (:nat x 3)))
(gl::def-gl-thm zeros
  :hyp (unsigned-byte-p 8 x)
  :concl (equal (equal (zeros-from 0 x) 8) (equal x 0))
  :g-bindings (gl::auto-bindings (:nat x 8)))
(gl::def-gl-thm lengths
  :hyp (unsigned-byte-p 6 x) :concl (equal (highest x) (integer-length x)) :g-bindings (gl::auto-bindings (:nat x 6)))
(gl::def-gl-thm euclid
  :hyp (and (unsigned-byte-p 2 x) (unsigned-byte-p 2 y))
  :concl (<= (steps x y) 3)
  :g-bindings (gl::auto-bindings (:nat x 2) (:nat y 2)))

; A measure that is no natural number, and a step behind a new binding of the formal.
(defun turns (x y)
  (declare (xargs :measure (make-ord 1 (+ 1 (nfix x)) (nfix y))))
  (cond ((zp x) 0)
        ((zp y) (+ 1 (turns (- x 1) 2)))
        (t (+ 1 (turns x (- y 1))))))
(defun counted-down (n)
  (declare (xargs :measure (nfix n)))
  (if (zp n) 0
    (let* ((m (- n 1)) (n (+ n 5)))
      (+ (mod n 3) (counted-down m)))))
(defun by-two (x acc)
  (declare (xargs :measure (nfix (- 8 (nfix x)))))
  (if (< (nfix x) 8) (by-two (+ 2 (nfix x)) (+ 1 acc)) acc))
(gl::def-gl-thm turns-end
  :hyp (unsigned-byte-p 2 x) :concl (<= (turns x 1) 10) :g-bindings (gl::auto-bindings (:nat x 2)))
(gl::def-gl-thm turns-are-more ; refuted
  :hyp (unsigned-byte-p 2 x) :concl (<= (turns x 1) 4) :g-bindings (gl::auto-bindings (:nat x 2)))
(gl::def-gl-thm the-new-binding ; refuted
  :hyp (unsigned-byte-p 3 n) :concl (null (counted-down n)) :g-bindings (gl::auto-bindings (:nat n 3)))
(gl::def-gl-thm by-twos ; refuted
  :hyp (unsigned-byte-p 3 n) :concl (equal (by-two n 0) (floor (- 8 n) 2)) :g-bindings (gl::auto-bindings (:nat n 3)))
