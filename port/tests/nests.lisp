(in-package "ACL2")
(include-book "centaur/gl/gl" :dir :system)

; Local books and events: one text of a definition above two others, macros that shadow, functions that nobody defines.
(encapsulate ()
  (local (include-book "parts/first"))
  (local (gl::def-gl-thm of-the-first-book
           :hyp (unsigned-byte-p 3 x) :concl (equal (list (twice x) (doubled x)) (list (+ 2 x) (* 2 x))) :g-bindings (gl::auto-bindings (:nat x 3)))))
(encapsulate ()
  (local (include-book "parts/second"))
  (local (gl::def-gl-thm of-the-second-book ; refuted
           :hyp (unsigned-byte-p 3 x) :concl (equal (twice x) (+ 2 x)) :g-bindings (gl::auto-bindings (:nat x 3))))
  (local (gl::def-gl-thm of-the-second-book-too ; refuted
           :hyp (unsigned-byte-p 3 x) :concl (equal (doubled x) (* 2 x)) :g-bindings (gl::auto-bindings (:nat x 3)))))
(defun stride (x) (+ x 3))
(defun twice (x) (stride (stride x)))
(gl::def-gl-thm of-neither ; refuted
  :hyp (unsigned-byte-p 3 x) :concl (equal (twice x) (+ 4 x)) :g-bindings (gl::auto-bindings (:nat x 3)))
; Macros within macros, and a function within a form of its name.
(defmacro with-name (name value form) `(let ((,name ,value)) ,form))
(gl::def-gl-thm a-macro-that-captures ; refuted
  :hyp (and (unsigned-byte-p 3 x) (unsigned-byte-p 3 y))
  :concl (equal (with-name x y (with-name y x (- y x))) (- x y))
  :g-bindings (gl::auto-bindings (:nat x 3) (:nat y 3)))
(gl::def-gl-thm parallel-and-not ; refuted
  :hyp (and (unsigned-byte-p 3 x) (unsigned-byte-p 3 y))
  :concl (equal (let ((x y) (y x)) (- x y)) (let* ((x y) (y x)) (- x y)))
  :g-bindings (gl::auto-bindings (:nat x 3) (:nat y 3)))
(gl::def-gl-thm functions-within ; refuted
  :hyp (unsigned-byte-p 3 x)
  :concl (equal (flet ((stride (y) (* 5 y)) (twice (y) (stride (+ 1 y)))) (flet ((stride (y) (+ (stride y) (twice y)))) (list (stride x) (twice x))))
                (list (+ 7 (* 6 x)) (+ 7 x)))
  :g-bindings (gl::auto-bindings (:nat x 3)))
; Functions without a definition: an attachment is none, nor is what a theorem says.
(encapsulate (((chosen *) => *))
  (local (defun chosen (x) x))
  (defun above-chosen (x) (+ 1 (ifix (chosen x))))
  (defthm chosen-is-itself (equal (chosen x) x)))
(defun identity-of (x) (declare (xargs :guard t)) x)
(defattach chosen identity-of)
(defchoose some-root (r) (x) (equal (* r r) x))
(defun-sk has-root (x) (exists r (equal (* r r) x)))
(gl::def-gl-thm of-an-attachment ; not ported
  :hyp (unsigned-byte-p 3 x) :concl (equal (above-chosen x) (+ 2 x)) :g-bindings (gl::auto-bindings (:nat x 3)))
(gl::def-gl-thm of-a-choice ; not ported
  :hyp (unsigned-byte-p 3 x) :concl (equal (some-root x) 0) :g-bindings (gl::auto-bindings (:nat x 3)))
(gl::def-gl-thm of-a-quantifier ; not ported
  :hyp (unsigned-byte-p 3 x) :concl (has-root x) :g-bindings (gl::auto-bindings (:nat x 3)))
; An event that is made by another, in whose world a name has another meaning.
(make-event (er-progn (defun width-of (x) (declare (ignore x)) 3) (value '(defun width-of (x) (declare (ignore x)) 2))))
(make-event
  (b* ((w (width-of nil)))
    (value `(gl::def-gl-thm made-of-a-value ; refuted
              :hyp (unsigned-byte-p ,(+ w (width-of 1)) x) :concl (unsigned-byte-p 3 x) :g-bindings (gl::auto-bindings (:nat x 4))))))
