(in-package "ACL2")
(include-book "centaur/gl/gl" :dir :system)
(include-book "centaur/fty/bitstruct" :dir :system)

; Bit structures: their functions are those that ACL2 has made.
(fty::defbitstruct flags ((carry bitp) (zero bitp)))
(fty::defbitstruct mode 3)
(fty::defbitstruct level 3 :signedp t)
(fty::defbitstruct status ((mode mode) (flags flags) (level level "a level")) :parents (acl2::top) :short "A status")
(fty::defbitstruct shift ((left bitp) (places level)) :signedp t)
(gl::def-gl-thm fields
  :hyp (unsigned-byte-p 8 x)
  :concl (and (equal (status->mode x) (mod x 8)) (equal (flags->zero (status->flags x)) (logand 1 (ash x -4))) (<= (status->level x) 3))
  :g-bindings (gl::auto-bindings (:nat x 8)))
(gl::def-gl-thm a-field-with-a-sign ; refuted
  :hyp (unsigned-byte-p 8 x) :concl (<= 0 (status->level x)) :g-bindings (gl::auto-bindings (:nat x 8)))
(gl::def-gl-thm a-structure-with-a-sign ; refuted
  :hyp (unsigned-byte-p 4 x) :concl (equal (shift-fix x) x) :g-bindings (gl::auto-bindings (:nat x 4)))
; A stobj and one that lives in a function alone.
(defstobj machine (steps :type (unsigned-byte 8) :initially 0) (cells :type (array (unsigned-byte 4) (4)) :initially 0))
(defun step-machine (machine)
  (declare (xargs :stobjs machine))
  (let* ((machine (update-steps (+ 1 (steps machine)) machine))) (update-cellsi 1 (steps machine) machine)))
(defun counted (x)
  (with-local-stobj machine
    (mv-let (n machine)
      (let* ((machine (update-steps x machine)) (machine (step-machine machine))) (mv (steps machine) machine))
      n)))
(gl::def-gl-thm of-a-stobj ; refuted
  :hyp (unsigned-byte-p 4 x)
  :concl (equal (step-machine (list x '(0 0 0 0))) (list (+ 1 x) (list 0 x 0 0)))
  :g-bindings (gl::auto-bindings (:nat x 4)))
(gl::def-gl-thm of-a-local-stobj
  :hyp (unsigned-byte-p 4 x) :concl (equal (counted x) (+ 1 x)) :g-bindings (gl::auto-bindings (:nat x 4)))
