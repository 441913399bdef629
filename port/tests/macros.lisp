(in-package "ACL2")
(include-book "centaur/gl/gl" :dir :system)

; Macros with templates, keywords, defaults and helpers of their own.
(defun names-of (word count)
  (declare (xargs :mode :program))
  (if (zp count) nil
    (append (names-of word (- count 1))
            (list (intern-in-package-of-symbol
                   (concatenate 'string (symbol-name word) (coerce (explode-nonnegative-integer count 10 nil) 'string))
                   word)))))
(defmacro with-bit (bit value &key (of '0))
  `(logior (ash (if ,value 1 0) ,bit) (logand ,of (lognot (ash 1 ,bit)))))
(defmacro sum-of (&rest terms)
  (if (consp terms) `(+ ,(car terms) (sum-of ,@(cdr terms))) 0))
(defun byte-tests (names)
  (declare (xargs :mode :program))
  (if (endp names) nil (cons (list 'unsigned-byte-p 8 (car names)) (byte-tests (cdr names)))))
(defmacro all-bytes (word count)
  `(and ,@(byte-tests (names-of word count))))
(defmacro def-field (name position width)
  `(progn (defun ,name (x) (logand (ash x ,(- position)) ,(1- (expt 2 width))))
          (defmacro ,(intern-in-package-of-symbol (concatenate 'string "SET-" (symbol-name name)) name) (v x)
            (list 'logior (list 'ash v ',position) x))))
(def-field opcode 4 3)

(gl::def-gl-thm bit-is-put
  :hyp (and (booleanp b) (unsigned-byte-p 6 x))
  :concl (and (equal (logbitp 3 (with-bit 3 b :of x)) b) (equal (with-bit 0 b) (if b 1 0)))
  :g-bindings (gl::auto-bindings (:bool b) (:nat x 6)))
(gl::def-gl-thm sums
  :hyp (all-bytes a 3)
  :concl (equal (sum-of a1 a2 a3) (+ a3 a2 a1))
  :g-bindings (gl::auto-bindings (:mix (:nat a1 8) (:nat a2 8) (:nat a3 8))))
(gl::def-gl-thm fields
  :hyp (unsigned-byte-p 3 v)
  :concl (equal (opcode (set-opcode v 1)) v)
  :g-bindings (gl::auto-bindings (:nat v 3)))
