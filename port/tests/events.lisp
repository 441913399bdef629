(in-package "ACL2")
(include-book "centaur/gl/gl" :dir :system)
(include-book "centaur/gl/defthm-using-gl" :dir :system)
(include-book "std/testing/must-fail" :dir :system)
(include-book "centaur/gl/bfr-aig-bddify" :dir :system)

; Events that stand inside others, and those that no theorem needs.
(defxdoc words-of-events :short "A word" :long "<p>of documentation</p>")
(local (include-book "arithmetic/top" :dir :system))
(set-ignore-ok t)
(encapsulate ()
  (local (defun low-byte (x) (logand x 255)))
  (with-output :off :all
    (local (gl::def-gl-thm in-an-encapsulate
             :hyp (unsigned-byte-p 12 x)
             :concl (<= (low-byte x) x)
             :g-bindings (gl::auto-bindings (:nat x 12))
             :rule-classes :linear))))
(progn
  (defun high-byte (x) (logand 255 (ash x -8)))
  (in-theory (disable high-byte))
  (gl::def-gl-rule both-bytes
    :short "A rule"
    :hyp (unsigned-byte-p 16 x)
    :concl (equal (+ (logand x 255) (ash (high-byte x) 8)) x)
    :g-bindings (gl::auto-bindings (:nat x 16))
    :disabledp t))
(defsection more-rules
  :short "Rules"
  (gl::def-gl-ruled a-disabled-rule
    :hyp (unsigned-byte-p 4 x) :concl (equal (logand x 15) x) :g-bindings '((x (:g-integer 0 1 2 3 4))))
  (gl::defthm-using-gl through-another-theorem
    :hyp (and (natp x) (< x 100))
    :concl (< (* 2 x) 200)
    :g-bindings (gl::auto-bindings (:nat x 7))))
(defmacro my-gl-thm (name &rest args) `(local (gl::def-gl-thm ,name ,@args)))
(my-gl-thm by-a-macro :hyp (booleanp b) :concl (equal (if b t nil) b) :g-bindings '((b (:g-boolean . 5))))
(defthm not-of-gl (equal (car (cons x y)) x))
(value-triple (cw "done~%"))
(must-fail (gl::def-gl-thm wanted-to-fail :hyp (booleanp b) :concl (equal b 1) :g-bindings (gl::auto-bindings (:bool b))))
(gl::gl-thm without-a-name-of-its-own :hyp (booleanp b) :concl (booleanp (not b)) :g-bindings (gl::auto-bindings (:bool b)))
(defthm by-a-hint
  (implies (booleanp b) (iff b b))
  :rule-classes nil
  :hints ((gl::gl-hint :hyp '(booleanp b) :concl '(iff b b) :g-bindings (gl::auto-bindings (:bool b)))))
(make-event `(gl::def-gl-thm ,(intern "MADE" "ACL2") :hyp (unsigned-byte-p ,(+ 1 2) x) :concl (< x 8) :g-bindings (gl::auto-bindings (:nat x 3))))
(gl::gl-aig-bddify-mode)
(gl::def-gl-thm by-search :hyp (unsigned-byte-p 14 x) :concl (equal (logxor x x) 0) :g-bindings (gl::auto-bindings (:nat x 14)))
(must-fail (gl::def-gl-thm wanted-to-fail-too :hyp (unsigned-byte-p 4 x) :concl (< x 3) :g-bindings (gl::auto-bindings (:nat x 4))))
(must-fail (gl::gl-thm wanted-to-fail-as-well :hyp (unsigned-byte-p 4 x) :concl (< x 3) :g-bindings (gl::auto-bindings (:nat x 4))))
