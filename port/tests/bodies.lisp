(in-package "ACL2")
(include-book "centaur/gl/gl" :dir :system)
(include-book "std/basic/defs" :dir :system)

; What counts is the logic: of mbe and its kin, of what is not run, of stobjs of each kind.
(defun two-bodies (x) (mbe :logic (+ 1 (ifix x)) :exec (+ 2 x)))
(defun nested-bodies (x) (mbe :logic (mbe :logic (two-bodies x) :exec 0) :exec (mbe :logic 1 :exec 2)))
(gl::def-gl-thm logic-of-bodies ; refuted
  :hyp (unsigned-byte-p 3 x) :concl (equal (nested-bodies x) (+ 2 x)) :g-bindings (gl::auto-bindings (:nat x 3)))
(gl::def-gl-thm logic-of-checks ; refuted at 4 alone
  :hyp (unsigned-byte-p 3 x)
  :concl (equal (list (the (integer 0 3) x) (assert$ (< x 2) x) (ec-call (car x)) (non-exec (+ 1 x)) (time$ x) (prog2$ (er hard 'logic "no") x)
                      (with-guard-checking :all (+ x 'a)) (mbt (< x 2)) (mv-list 2 (mv x 1)) (hard-error 'logic "no" nil) (cw "~x0" x))
                (list x x (if (equal x 4) 0 nil) (+ 1 x) x x x (< x 2) (list x 1) nil nil))
  :g-bindings (gl::auto-bindings (:nat x 3)))
(defun-nx not-run (x) (+ 1 (car (list x 2))))
(gl::def-gl-thm of-what-is-not-run ; refuted
  :hyp (unsigned-byte-p 3 x) :concl (equal (not-run x) x) :g-bindings (gl::auto-bindings (:nat x 3)))
; Stobjs with arrays, tables and another stobj.
(defstobj inner (level :type (unsigned-byte 8) :initially 3))
(defstobj outer (inside :type inner) (row :type (array (unsigned-byte 4) (2)) :initially 1 :resizable t) (seen :type (hash-table eql)))
(defun into-outer (x outer)
  (declare (xargs :stobjs outer :verify-guards nil))
  (let* ((outer (resize-row 3 outer)) (outer (update-rowi 2 x outer)) (outer (seen-put x (row-length outer) outer)) (outer (seen-put 1 7 outer)))
    (stobj-let ((inner (inside outer))) (inner) (update-level (+ x (level inner)) inner) outer)))
(defun read-outer (x)
  (declare (xargs :verify-guards nil))
  (with-local-stobj outer
    (mv-let (all outer)
      (let* ((outer (into-outer x outer)))
        (mv (list (stobj-let ((inner (inside outer))) (level) (level inner) level) (rowi 0 outer) (rowi 2 outer) (seen-get x outer) (seen-count outer)) outer))
      all)))
(gl::def-gl-thm of-stobjs-in-stobjs ; refuted at 1 alone
  :hyp (unsigned-byte-p 3 x) :concl (equal (read-outer x) (list (+ 3 x) 1 x 3 2)) :g-bindings (gl::auto-bindings (:nat x 3)))
(defstobj many (each :type (array inner (2000000)))) ; too many to make while a book is loaded
; An abstract stobj whose logic is a number, while a list of its digit is what runs.
(defstobj digit$c (digit-field :type (integer 0 *) :initially 0))
(defun digitp$a (x) (declare (xargs :guard t)) (natp x))
(defun create-digit$a () (declare (xargs :guard t)) 0)
(defun digit$a (x) (declare (xargs :guard (digitp$a x))) x)
(defun put-digit$a (n x) (declare (xargs :guard (and (natp n) (digitp$a x))) (ignore x)) n)
(defun put-digit$c (n digit$c) (declare (xargs :stobjs digit$c :guard (natp n))) (update-digit-field n digit$c))
(defun-nx digit-corr (c a) (and (digit$cp c) (digitp$a a) (equal (nth 0 c) a)))
(defabsstobj digit
  :foundation digit$c :recognizer (digitp :logic digitp$a :exec digit$cp) :creator (create-digit :logic create-digit$a :exec create-digit$c)
  :corr-fn digit-corr :exports ((digit-of :logic digit$a :exec digit-field) (put-digit :logic put-digit$a :exec put-digit$c)))
(defun bump-digit (k digit) (declare (xargs :stobjs digit :guard (natp k))) (put-digit (+ k (digit-of digit)) digit))
(defun bump-digits (k digit)
  (declare (xargs :stobjs digit :guard (natp k)))
  (if (zp k) digit (let ((digit (bump-digit k digit))) (bump-digits (- k 1) digit))))
(gl::def-gl-thm of-an-abstract-stobj ; refuted
  :hyp (and (unsigned-byte-p 3 x) (unsigned-byte-p 2 k)) :concl (equal (bump-digit k x) (list (+ k x))) :g-bindings (gl::auto-bindings (:nat x 3) (:nat k 2)))
(gl::def-gl-thm of-an-abstract-stobj-again
  :hyp (and (unsigned-byte-p 3 x) (unsigned-byte-p 2 k)) :concl (equal (* 2 (bump-digits k x)) (+ (* 2 x) (* k (+ k 1))))
  :g-bindings (gl::auto-bindings (:nat x 3) (:nat k 2)))
