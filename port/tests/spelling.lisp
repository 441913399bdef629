(in-package "ACL2")
(include-book "centaur/gl/gl" :dir :system)

; What the reader makes of a text: conditions, bases, numbers and symbols that look alike, and what it computes.
(defconst *k* 6)
(defconst *l* (list *k* :b))
(defun chosen-by-the-reader (x)
  (list #+acl2 x #-acl2 (+ 1 x) #+(or no-such-feature (not acl2)) 7 #-(and acl2 no-such-feature) 8 #.*k* '(#.*l* a) #x-1f #o17 #b-101 +3 4/2 1. -0))
(gl::def-gl-thm read-as-told ; refuted at 2 alone
  :hyp (unsigned-byte-p 3 x)
  :concl (equal (chosen-by-the-reader x) (list x 8 6 '((6 :b) a) -31 15 -5 (if (equal x 2) 4 3) 2 1 0))
  :g-bindings (gl::auto-bindings (:nat x 3)))
(gl::def-gl-thm look-like-numbers ; refuted at 6 alone
  :hyp (unsigned-byte-p 4 x)
  :concl (let ((s (case x (0 '|1|) (1 '|+3|) (2 '|1/2|) (3 '|1e5|) (4 '|.5|) (5 '|..|) (6 '|1.|) (7 '1+) (8 '-) (9 '|#x1|) (10 '|#\\a|)
                          (11 '|;a|) (12 '|"a"|) (13 '|,a|) (14 '|'a|) (otherwise '|a\|b|))))
           (and (symbolp s) (iff (equal s '|1.|) nil) (not (member s '(1 3 5 a "a" #\a)))))
  :g-bindings (gl::auto-bindings (:nat x 4)))
(gl::def-gl-thm characters-and-strings ; refuted at 3 alone
  :hyp (unsigned-byte-p 3 x)
  :concl (equal (case x (0 #\Space) (1 #\() (2 #\\) (3 #\a) (4 "a\\b\"c") (5 "a
b") (6 #\") (otherwise ";(|#"))
                (case x (0 (code-char 32)) (1 (code-char 40)) (2 (code-char 92)) (3 #\A) (4 "a\\b\"c") (5 "a
b") (6 (code-char 34)) (otherwise ";(|#")))
  :g-bindings (gl::auto-bindings (:nat x 3)))
(gl::def-gl-thm lists-with-marks-in-them ; refuted
  :hyp (booleanp b)
  :concl (equal (if b '(quote a . (b)) '`(a ,b ,@c)) ''a)
  :g-bindings (gl::auto-bindings (:bool b)))
(gl::def-gl-thm shapes-of-constants ; refuted
  :hyp (and (or (equal x 'a) (equal x :g-boolean) (equal x "s") (equal x #\c) (equal x '(1 . :b))) (booleanp b))
  :concl (not (equal x '(1 . :b)))
  :g-bindings `((b (:g-boolean . 0))
                (x (:g-ite ((:g-boolean . 1) . a) . (:g-ite ((:g-boolean . 2) . (:g-concrete . :g-boolean))
                     . (:g-ite ((:g-boolean . 3) . "s") . (:g-ite ((:g-boolean . 4) . #\c) . (:g-concrete 1 . :b))))))))
; Keys of CASE that are no lists, tests without a value, and several values.
(defun keyed (x) (case x ((a . nil) 1) (t 2)))
(defun tested (x) (cond ((< x 3)) ((equal x 3) nil) ((or (equal x 4) (member x '(5 6)))) (t)))
(gl::def-gl-thm tests-and-keys ; refuted at 5 alone
  :hyp (unsigned-byte-p 3 x)
  :concl (and (equal (keyed (if (< x 4) 'a nil)) (if (< x 4) 1 2))
              (equal (tested x) (cond ((equal x 3) nil) ((equal x 5) '(5)) ((equal x 6) '(6)) (t t)))
              (equal (and) t) (equal (or) nil) (equal (list* x) x) (equal (+) 0) (equal (*) 1) (equal (logand) -1) (equal (append) nil))
  :g-bindings (gl::auto-bindings (:nat x 3)) :rule-classes nil)
; Order of evaluation and of arguments.
(gl::def-gl-thm orders ; refuted at 1 alone
  :hyp (unsigned-byte-p 2 x)
  :concl (equal (list (>= x 2) (> x 2) (/= x 1) (- x) (- x 1) (1- x) (max x 2) (min 2 x) (nth x '(a b c)) (logbitp x 5) (expt x 2) (mod x -3) (rem (- x) 3) (truncate (- x) 2) (floor (- x) 2))
                (list (<= 2 x) (< 2 x) (not (equal x 1)) (- 0 x) (+ -1 x) (+ -1 x) (if (< 2 x) x 2) (if (< x 2) x 2)
                      (case x (0 'a) (1 'c) (2 'c)) (evenp x) (* x x) (case x (0 0) (1 -2) (2 -1) (3 0)) (case x (3 0) (t (- x))) (if (< x 2) 0 -1) (case x (0 0) (3 -2) (t -1))))
  :g-bindings (gl::auto-bindings (:nat x 2)))
