(in-package "ACL2")
#| Block comments |# (include-book "centaur/gl/gl" :dir :system)
#| and nested #| ones |# (include-book "no-such-book") |#

; Every spelling of a symbol, a number and a character that ACL2 reads.
(defconst *mask* #ux_FF_00)
(defconst *add* 3)
(defconst *e-acute* (code-char 233))
(defconst *acute* (coerce (list *e-acute*) 'string))
(defun |lower case| (acl2::x)
  (logand acl2::x #.*mask*))
(defun kind-of (c)
  (case c (#\a 'letter) (#\Space :blank) ((#\0 #\1) "digit") (otherwise '(other . thing))))
(defun operate (op x)
  (case op (#.*add* (+ x 1)) ((4 5) (list '#.*mask* "a \\ \" b")) (otherwise x)))
(defun spelled (x) (case x (1 '|a|) (2 'a) (3 '|A b;|) (4 '|12|) (5 '||) (6 :|k|) (7 '*c*) (8 '|T|) (otherwise '|t|)))
(defun foreign (c) (case c (#.*e-acute* 1) (#\e 2) (otherwise 3)))
#+(and acl2 (not no-such-feature))
(gl::def-gl-thm bars-and-bases
  :hyp (unsigned-byte-p 16 |X|)
  :concl (equal (|lower case| x) (- x (logand x #ub1111_1111)))
  :g-bindings (gl::auto-bindings (:nat |X| 16)))
(gl::def-gl-thm characters
  :hyp (booleanp b)
  :concl (equal (kind-of (if b #\0 #\Space)) (if b "digit" :blank))
  :g-bindings `((b ,(gl::g-boolean 0))))
(gl::def-gl-thm key-is-a-constant ; refuted
  :hyp (unsigned-byte-p 4 x) :concl (equal (operate 3 x) x) :g-bindings (gl::auto-bindings (:nat x 4)))
(gl::def-gl-thm quoted-constant ; refuted
  :hyp (booleanp b) :concl (equal (operate 5 b) '(*mask* "a \\ \" b")) :g-bindings (gl::auto-bindings (:bool b)))
(gl::def-gl-thm letters-are-cases ; refuted
  :hyp (or (equal x 1) (equal x 2)) :concl (equal (spelled x) (spelled (- 3 x))) :g-bindings (gl::auto-bindings (:nat x 2)))
(gl::def-gl-thm symbols-differ
  :hyp (unsigned-byte-p 4 x)
  :concl (and (iff (symbolp (spelled x)) t) (iff (equal (spelled x) t) (equal x 8)) (iff (equal (spelled x) 'a) (equal x 2)))
  :g-bindings (gl::auto-bindings (:nat x 4)))
(gl::def-gl-thm letters-above-126 ; refuted
  :hyp (booleanp b) :concl (equal (foreign (if b (code-char 233) #\e)) 2) :g-bindings (gl::auto-bindings (:bool b)))
(gl::def-gl-thm a-string-of-them ; not ported
  :hyp (booleanp b) :concl (equal (if b *acute* "e") "e") :g-bindings (gl::auto-bindings (:bool b)))
