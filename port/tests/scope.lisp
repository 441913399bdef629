(in-package "ACL2")
(include-book "centaur/gl/gl" :dir :system)

; What a name means depends on where it stands, and on its package.
(encapsulate ()
  (local (defun f (x) (logand x 7)))
  (local (gl::def-gl-thm of-the-local-one
           :hyp (unsigned-byte-p 4 x) :concl (< (f x) 8) :g-bindings (gl::auto-bindings (:nat x 4)))))
(defun f (x) x)
(gl::def-gl-thm of-the-global-one ; refuted
  :hyp (unsigned-byte-p 4 x) :concl (< (f x) 8) :g-bindings (gl::auto-bindings (:nat x 4)))
(defun p::f (x) (+ x 1))
(defun q::f (x) (+ x 2))
(gl::def-gl-thm two-packages ; refuted
  :hyp (unsigned-byte-p 4 x) :concl (equal (p::f x) (q::f x)) :g-bindings (gl::auto-bindings (:nat x 4)))
(gl::def-gl-thm two-variables ; refuted
  :hyp (unsigned-byte-p 4 x) :concl (equal (let ((q::x 5)) (+ x q::x)) (+ x x)) :g-bindings (gl::auto-bindings (:nat x 4)))
(gl::def-gl-thm two-symbols ; refuted
  :hyp (booleanp b) :concl (equal (if b 'p::a 'q::a) 'p::a) :g-bindings (gl::auto-bindings (:bool b)))
(defun p::lognot (x) (- 15 x))
(defun p::loghead (n x) (+ n x))
(defun p::len (x) (car x))
(gl::def-gl-thm functions-of-the-books-own ; refuted
  :hyp (unsigned-byte-p 4 x)
  :concl (and (equal (p::lognot x) (- 15 x)) (equal (p::loghead 3 x) (+ 3 x)) (equal (p::len (list x)) x)
              (equal (p::loghead 3 x) (mod x 8)))
  :g-bindings (gl::auto-bindings (:nat x 4)))
(defun p::fl (x) (+ x 1))
(defun fl (x) (* 2 x))
(defun p::raise (x) (- x 1))
(defun lsh (x n) (+ x n))
(gl::def-gl-thm names-of-libraries ; refuted
  :hyp (unsigned-byte-p 4 x)
  :concl (and (equal (p::fl x) (+ 1 x)) (equal (p::raise x) (- x 1)) (equal (lsh x 2) (+ 2 x)) (equal (fl x) x))
  :g-bindings (gl::auto-bindings (:nat x 4)))
(gl::def-gl-thm flets ; refuted
  :hyp (unsigned-byte-p 4 x)
  :concl (equal (flet ((f (x) (+ x 3))) (flet ((f (x) (f (* 2 x)))) (f x))) (* 2 x))
  :g-bindings (gl::auto-bindings (:nat x 4)))
(gl::def-gl-thm same-name
  :hyp (unsigned-byte-p 4 x) :concl (equal (f x) x) :g-bindings (gl::auto-bindings (:nat x 4)))
(gl::def-gl-thm variables-named-as-the-truths ; refuted
  :hyp (and (unsigned-byte-p 2 r::nil) (unsigned-byte-p 2 r::t))
  :concl (equal (+ r::nil r::t) (if r::nil 0 1))
  :g-bindings (gl::auto-bindings (:nat r::nil 2) (:nat r::t 2)))
; One name of a theorem, of a constant and of a function twice, each in its own scope.
(encapsulate ()
  (local (defconst *k* 1))
  (local (defun shifted (x) (+ x *k*)))
  (local (gl::def-gl-thm of-its-scope
           :hyp (unsigned-byte-p 4 x) :concl (equal (shifted x) (+ x 1)) :g-bindings (gl::auto-bindings (:nat x 4)))))
(encapsulate ()
  (local (defconst *k* 2))
  (local (defun shifted (x) (+ x *k*)))
  (local (gl::def-gl-thm of-its-scope ; refuted
           :hyp (unsigned-byte-p 4 x) :concl (equal (shifted x) (+ x 1)) :g-bindings (gl::auto-bindings (:nat x 4)))))
; What a MAKE-EVENT defines on its way is gone behind it.
(make-event (er-progn (defun gone (x) (+ 5 x)) (value '(value-triple :gone))))
(defun gone (x) (+ 6 x))
(gl::def-gl-thm of-what-stays ; refuted
  :hyp (unsigned-byte-p 4 x) :concl (equal (gone x) (+ 5 x)) :g-bindings (gl::auto-bindings (:nat x 4)))
; A witness inside of its ENCAPSULATE, and none behind it.
(encapsulate (((chosen *) => *))
  (local (defun chosen (x) x))
  (gl::def-gl-thm of-the-witness
    :hyp (unsigned-byte-p 4 x) :concl (equal (chosen x) x) :g-bindings (gl::auto-bindings (:nat x 4))))
(gl::def-gl-thm of-no-witness
  :hyp (unsigned-byte-p 4 x) :concl (equal (chosen x) x) :g-bindings (gl::auto-bindings (:nat x 4)))
