; From the GL tutorial in ACL2's manual, topic "1. An Example GL Proof": a fast way to count the ones of a word of 32 bits, after
; Sean Anderson's Bit Twiddling Hacks. Changed: books/arithmetic in front, for `expt`, and the second theorem written out. It is
; run from the repository's folder.
(in-package "ACL2")
(include-book "centaur/gl/gl" :dir :system)
(include-book "books/arithmetic")

(defun 32* (x y)
  (logand (* x y) (1- (expt 2 32))))

(defun fast-logcount-32 (v)
  (let* ((v (- v (logand (ash v -1) #x55555555)))
         (v (+ (logand v #x33333333)
               (logand (ash v -2) #x33333333))))
    (ash (32* (logand (+ v (ash v -4)) #xF0F0F0F)
              #x1010101)
         -24)))

(def-gl-thm fast-logcount-32-correct
  :hyp   (unsigned-byte-p 32 x)
  :concl (equal (fast-logcount-32 x)
                (logcount x))
  :g-bindings `((x ,(g-int 0 1 33))))

; The same with an unlimited product, which the manual's authors wrote first.
(defun slow-logcount-32 (v)
  (let* ((v (- v (logand (ash v -1) #x55555555)))
         (v (+ (logand v #x33333333)
               (logand (ash v -2) #x33333333))))
    (ash (* (logand (+ v (ash v -4)) #xF0F0F0F)
            #x1010101)
         -24)))

(def-gl-thm slow-logcount-32-wrong
  :hyp   (unsigned-byte-p 32 x)
  :concl (equal (slow-logcount-32 x)
                (logcount x))
  :g-bindings `((x ,(g-int 0 1 33))))
