(in-package "ACL2")
(include-book "centaur/gl/gl" :dir :system)

; Each way to bind a variable.
(defun run-of (start by count)
  (if (zp count) nil (cons start (run-of (+ start by) by (- count 1)))))

(gl::def-gl-thm a-number
  :hyp (unsigned-byte-p 4 x)
  :concl (< x 16)
  :g-bindings `((x (:g-number ,(run-of 0 1 5)))))

(gl::def-gl-thm a-boolean
  :hyp (and (booleanp b) (unsigned-byte-p 3 x))
  :concl (equal (logbitp 0 (+ x (if b 2 0))) (logbitp 0 x))
  :g-bindings (gl::auto-bindings (:bool b) (:nat x 3)))

(gl::def-gl-thm reversed-and-skipped
  :hyp (and (signed-byte-p 7 a) (signed-byte-p 4 b) (unsigned-byte-p 2 c))
  :concl (equal (+ a b c) (+ c b a))
  :g-bindings (gl::auto-bindings (:mix (:int a 7) (:seq (:int b 4) (:skip 3))) (:rev (:nat c 2))))

; GL's cover wants a proof of this one that it does not find. Here the hypothesis covers it as it is written.
(gl::def-gl-thm a-choice
  :hyp (or (equal x 5) (unsigned-byte-p 2 x))
  :concl (< x 6)
  :g-bindings `((x (:g-ite ((:g-boolean . 0) . 5) . ,(gl::g-int 1 1 3)))))

(gl::def-gl-thm a-pair
  :hyp (and (consp p) (unsigned-byte-p 10 (car p)) (booleanp (cdr p)))
  :concl (< (+ (car p) (if (cdr p) 1 0)) 1025)
  :g-bindings `((p (,(gl::g-int 0 2 11) . (:g-boolean . 1)))))

(gl::def-gl-thm wider-than-need-be
  :hyp (unsigned-byte-p 20 x)
  :concl (equal (logand x 1048575) x)
  :g-bindings (gl::auto-bindings (:nat x 140)))

(gl::def-gl-thm a-wrong-one
  :hyp (and (unsigned-byte-p 4 x) (booleanp b))
  :concl (< (+ x (if b 1 0)) 16)
  :g-bindings `((x (:g-number ,(run-of 0 1 5))) (b (:g-boolean . 5))))
