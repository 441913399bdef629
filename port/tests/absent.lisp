; A constant is read from a file that is not there, as a circuit is: the form that reads it is taken, a later one is not.
(in-package "ACL2")
(include-book "centaur/gl/gl" :dir :system)

(make-event
 (mv-let (channel state) (open-input-channel "word.hex" :byte state)
   (if (null channel)
       (value '(defconst *word* nil))
     (mv-let (word state) (read-byte$ channel state)
       (let ((state (close-input-channel channel state)))
         (value `(defconst *word* ,word)))))))
(defconst *half* (if *word* (ash *word* -1) (er hard? '*half* "The word ~x0 has no half." *word*)))
(gl::def-gl-thm half-of-the-word
  :hyp (unsigned-byte-p 8 x)
  :concl (<= (logand x *half*) *half*)
  :g-bindings (gl::auto-bindings (:nat x 8)))
(gl::def-gl-thm of-no-word
  :hyp (unsigned-byte-p 8 x)
  :concl (<= (logand x 7) 7)
  :g-bindings (gl::auto-bindings (:nat x 8)))
