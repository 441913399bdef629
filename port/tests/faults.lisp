(in-package "ACL2")
(include-book "centaur/gl/gl" :dir :system)

; What ACL2 does not take: the reason names the first form that theorems miss, and what cannot be read ends the book.
(gl::def-gl-thm of-nothing
  :hyp (unsigned-byte-p 4 x) :concl (< (defined-nowhere x) 4) :g-bindings (gl::auto-bindings (:nat x 4)))
(defun broken (x) (defined-nowhere x))
(gl::def-gl-thm of-the-broken-one
  :hyp (unsigned-byte-p 4 x) :concl (< (broken x) 4) :g-bindings (gl::auto-bindings (:nat x 4)))
(defstub unknown (x) t)
(defun-sk some-y (x) (exists y (equal (unknown y) x)))
(gl::def-gl-thm of-a-witness-that-is-not-known
  :hyp (unsigned-byte-p 4 x) :concl (not (some-y x)) :g-bindings (gl::auto-bindings (:nat x 4)))
(defun sums (l) (loop$ for i in l sum (+ 1 i)))
(gl::def-gl-thm of-a-loop
  :hyp (unsigned-byte-p 4 x) :concl (equal (sums (list x)) (+ 1 x)) :g-bindings (gl::auto-bindings (:nat x 4)))
(gl::def-gl-thm of-a-form-of-its-own
  :hyp (unsigned-byte-p 4 x) :concl (< x 15) :g-bindings (gl::auto-bindings (:nat x 4)))
(defconst *letter* #\Nul)
(gl::def-gl-thm behind-what-is-not-read
  :hyp (unsigned-byte-p 4 x) :concl (< x 4) :g-bindings (gl::auto-bindings (:nat x 4)))
