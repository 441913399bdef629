; Theorems about books/float.lisp for each format: fields make the encoding again, and each encoding is of exactly one class.
(include-book "books/float")

(defun one-of (p q r s u)
  (equal (+ (bool->bit p) (bool->bit q) (bool->bit r) (bool->bit s) (bool->bit u)) 1))

(defun one-class (x f)
  (one-of (zerp x f) (denormp x f) (normp x f) (infp x f) (nanp x f)))

(defun fields-make (x f)
  (equal x (logapp (sigw f) (sigf x f) (logapp (expw f) (expf x f) (sgnf x f)))))

(defun nans-are-two (x f)
  (and (equal (nanp x f) (xor (qnanp x f) (snanp x f)))
       (implies (nanp x f) (qnanp (qnanize x f) f))))

(def-gl-thm binary16
  :hyp (unsigned-byte-p 16 x)
  :concl (and (encodingp x (hp))
              (one-class x (hp))
              (fields-make x (hp))
              (nans-are-two x (hp))
              (equal (sigf x (hp)) (manf x (hp))))
  :g-bindings (auto-bindings (:nat x 16)))

(def-gl-thm binary32
  :hyp (unsigned-byte-p 32 x)
  :concl (and (encodingp x (sp))
              (one-class x (sp))
              (fields-make x (sp))
              (nans-are-two x (sp))
              (equal (infp x (sp)) (equal x (iencode (sgnf x (sp)) (sp))))
              (equal (zerp x (sp)) (equal x (zencode (sgnf x (sp)) (sp)))))
  :g-bindings (auto-bindings (:nat x 32)))

(def-gl-thm binary64
  :hyp (unsigned-byte-p 64 x)
  :concl (and (encodingp x (dp))
              (one-class x (dp))
              (fields-make x (dp))
              (nans-are-two x (dp))
              (not (unsupp x (dp)))
              (not (pseudop x (dp)))
              (equal (infp x (dp)) (equal x (iencode (sgnf x (dp)) (dp)))))
  :g-bindings (auto-bindings (:nat x 64)))

(def-gl-thm bfloat16
  :hyp (unsigned-byte-p 16 x)
  :concl (and (encodingp x (bf))
              (one-class x (bf))
              (fields-make x (bf))
              (equal (expf x (bf)) (expf (ash x 16) (sp))))
  :g-bindings (auto-bindings (:nat x 16)))

; With a written leading bit there are two more classes.
(def-gl-thm extended80
  :hyp (unsigned-byte-p 80 x)
  :concl (and (encodingp x (ep))
              (equal (one-class x (ep))
                     (not (or (unsupp x (ep)) (pseudop x (ep)))))
              (fields-make x (ep)))
  :g-bindings (auto-bindings (:nat x 80)))

(value-triple (list (bias (hp)) (bias (sp)) (bias (dp)) (formatp (dp)) (leading-bit 3 (hp))
                    (greatest-expf (dp)) (prec (dp)) (expw (dp)) (explicitp (ep))))
