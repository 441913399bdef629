(in-package "ACL2")
(include-book "centaur/gl/gl" :dir :system)
(include-book "std/util/define" :dir :system)

; Each way to define a function, and several values.
(defund double (x) (declare (xargs :guard (integerp x))) (* 2 x))
(defun-inline half (x) (declare (type integer x)) (ash x -1))
(defabbrev quarter (x) (half (half x)))
(defconst *width* (+ 4 (expt 2 3)))
(define bump ((x natp "a number") &key ((step natp) '1))
  :returns (y natp :rule-classes :type-prescription)
  :short "Adds a step."
  (declare (ignorable step))
  (+ (nfix x) (nfix step))
  ///
  (defthm bump-is-natural (natp (bump-fn x s))))
(defn split-word (x) (mv (logand x 63) (ash x -6)))
(defun joined (x)
  (mv-let (low high)
    (split-word x)
    (+ low (* 64 high))))
(mutual-recursion
 (defun even-count (n) (declare (xargs :measure (nfix n))) (if (zp n) t (odd-count (- n 1))))
 (defun odd-count (n) (declare (xargs :measure (nfix n))) (if (zp n) nil (even-count (- n 1)))))

(gl::def-gl-thm doubles
  :hyp (unsigned-byte-p *width* x)
  :concl (and (equal (half (double x)) x) (equal (quarter (* 4 x)) x))
  :g-bindings (gl::auto-bindings (:nat x 12)))
(gl::def-gl-thm keywords
  :hyp (unsigned-byte-p 8 x)
  :concl (equal (bump x :step 3) (bump (bump (bump x))))
  :g-bindings (gl::auto-bindings (:nat x 8)))
(gl::def-gl-thm several-values
  :hyp (unsigned-byte-p *width* x)
  :concl (and (equal (joined x) x) (equal (mv-nth 1 (split-word x)) (floor x 64)))
  :g-bindings (gl::auto-bindings (:nat x 12)))
(gl::def-gl-thm cliques
  :hyp (unsigned-byte-p 4 n)
  :concl (equal (even-count n) (evenp n))
  :g-bindings (gl::auto-bindings (:nat n 4)))
