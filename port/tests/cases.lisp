(in-package "ACL2")
(include-book "centaur/gl/gl" :dir :system)
(include-book "centaur/bitops/ihs-extensions" :dir :system)

; Theorems by cases. The first three have the forms of GL's manual.
(defmacro 32* (x y) `(logand (* ,x ,y) (1- (expt 2 32))))
(defun fast-logcount-32 (v)
  (let* ((v (- v (logand (ash v -1) #x55555555)))
         (v (+ (logand v #x33333333) (logand (ash v -2) #x33333333))))
    (ash (32* (logand (+ v (ash v -4)) #xF0F0F0F) #x1010101) -24)))

(gl::def-gl-param-thm fast-logcount-32-correct-alt
  :hyp (unsigned-byte-p 32 x)
  :concl (equal (fast-logcount-32 x) (logcount x))
  :param-bindings
  `((((msb 1) (low nil)) ((x ,(gl::g-int 32 -1 33))))
    (((msb 0) (low 0))   ((x ,(gl::g-int  0  1 33))))
    (((msb 0) (low 1))   ((x ,(gl::g-int  5  1 33))))
    (((msb 0) (low 2))   ((x ,(gl::g-int  0  2 33))))
    (((msb 0) (low 3))   ((x ,(gl::g-int  3  1 33)))))
  :param-hyp (and (equal msb (ash x -31))
                  (or (equal msb 1)
                      (equal (logand x 3) low)))
  :cov-bindings `((x ,(gl::g-int 0 1 33))))

(gl::def-gl-param-thm additive-inverse-for-5-bits
  :hyp (and (integerp n) (<= -16 n) (< n 16))
  :concl (equal (- n n) 0)
  :param-hyp (if sign
                 (< n 0)
               (and (<= 0 n)
                    (equal (logand n 3) lower-bits)))
  :cov-bindings
  '((n (:g-number (0 1 2 5 6))))
  :param-bindings
  '((((sign t) (lower-bits nil)) ((n (:g-number (1 2 3 4 5)))))
    (((sign nil) (lower-bits 0)) ((n (:g-number (0 2 3 4 5)))))
    (((sign nil) (lower-bits 1)) ((n (:g-number (0 1 2 4 5)))))
    (((sign nil) (lower-bits 2)) ((n (:g-number (0 1 2 3 5)))))
    (((sign nil) (lower-bits 3)) ((n (:g-number (0 1 2 3 4)))))))

(gl::def-gl-param-thm finite-commute-of-*
  :hyp (and (natp a) (< a (expt 2 16))
            (natp n) (< n 4))
  :concl (equal (* n a) (* a n))
  :rule-classes nil :hyp-clk 100000 :n-counterexamples 1
  :param-bindings `((((lsb 0) (high-sb 0)) ,(gl::auto-bindings (:nat a 16) (:nat n 2)))
                    (((high-sb 1) (lsb 0)) ,(gl::auto-bindings (:nat a 16) (:nat n 2)))
                    (((lsb 1) (high-sb 0)) ,(gl::auto-bindings (:nat a 16) (:nat n 2)))
                    (((lsb 1) (high-sb 1)) ,(gl::auto-bindings (:nat a 16) (:nat n 2))))
  :param-hyp (equal n (logapp 1 lsb high-sb))
  :cov-bindings (gl::auto-bindings (:nat a 16) (:nat n 2)))

; The cases are computed, the hypothesis is opened, and the cases' name is that of a function too.
(defun bytep (x) (and (natp x) (< x 256)))
(defun high (x) (ash x -6))
(defun high-cases (n)
  (if (zp n)
      nil
    (cons (list (list (list 'high (1- n)))
                (list (list 'x (gl::g-int 0 2 9)) (list 'y (gl::g-int 1 2 9))))
          (high-cases (1- n)))))
(gl::gl-param-thm sums-commute
  :hyp (and (bytep x) (bytep y))
  :concl (equal (+ x y (high x)) (+ (high x) y x))
  :param-hyp (equal (high x) high)
  :param-bindings (high-cases 4)
  :cov-bindings (gl::auto-bindings (:mix (:nat x 8) (:nat y 8))))

(gl::def-gl-param-thm a-wrong-one
  :hyp (bytep x)
  :concl (< (+ x (high x)) 258)
  :param-hyp (equal (high x) top)
  :param-bindings '((((top 0)) ((x (:g-integer 0 1 2 3 4 5 6 7 8))))
                    (((top 1)) ((x (:g-integer 0 1 2 3 4 5 6 7 8))))
                    (((top 2)) ((x (:g-integer 0 1 2 3 4 5 6 7 8))))
                    (((top 3)) ((x (:g-integer 8 7 6 5 4 3 2 1 0)))))
  :cov-bindings '((x (:g-integer 0 1 2 3 4 5 6 7 8))))
