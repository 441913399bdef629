; Encodings of floating-point numbers as words: their fields and their classes, under the names and with the values of ACL2's
; book rtl/rel11/lib/reps, package RTL. A format is a list (explicit precision exponent-width); (hp), (sp), (dp) are binary16,
; binary32, binary64, (bf) is bfloat16 and (ep) the extended format of 80 bits, whose leading bit is written.
;
; x is an encoding of f: a natural number below 2^(1 + expw + sigw). The classes are NIL of what is none. The fields of what is
; none are those of the bits that are there. A value as a number is no part of this book, since the universe has no ratios. The bias
; of an exponent without bits is a ratio in ACL2, as -1/2, and the pair of its numerator and denominator here, as (-1 . 2).

(include-book "books/rtl")

(defun hp () '(nil 11 5))
(defun sp () '(nil 24 8))
(defun dp () '(nil 53 11))
(defun bf () '(nil 8 8))
(defun ep () '(t 64 15))

(defun formatp (f)
  (and (consp f)
       (consp (cdr f))
       (consp (cddr f))
       (natp (cadr f))
       (> (cadr f) 1)
       (natp (caddr f))
       (> (caddr f) 1)))

(defun explicitp (f) (car f))
(defun prec (f) (cadr f))
(defun expw (f) (caddr f))
(defun sigw (f) (if (explicitp f) (prec f) (- (prec f) 1)))
(defun bias (f)
  (if (posp (expw f))
      (logmask (- (expw f) 1))
    (let ((below (ash 1 (- 1 (ifix (expw f))))))
      (cons (- 1 below) below))))

(defun encodingp (x f)
  (and (formatp f)
       (integerp x)
       (<= 0 x)
       (equal (logtail (+ 1 (expw f) (sigw f)) x) 0)))

; ---- fields: sign, exponent with its bias, significand, and the significand without a leading bit that is written
(defun sgnf (x f) (bitn x (+ (expw f) (sigw f))))
(defun expf (x f) (bits x (- (+ (expw f) (sigw f)) 1) (sigw f)))
(defun sigf (x f) (bits x (- (sigw f) 1) 0))
(defun manf (x f) (bits x (- (prec f) 2) 0))

; ---- classes
(defun greatest-expf (f) (logmask (expw f)))
(defun leading-bit (x f) (bitn x (- (prec f) 1)))

(defun unsupp (x f)
  (and (encodingp x f)
       (explicitp f)
       (< 0 (expf x f))
       (= (leading-bit x f) 0)))
(defun zerp (x f)
  (and (encodingp x f)
       (= (expf x f) 0)
       (= (sigf x f) 0)))
(defun denormp (x f)
  (and (encodingp x f)
       (= (expf x f) 0)
       (not (= (sigf x f) 0))
       (implies (explicitp f) (= (leading-bit x f) 0))))
(defun pseudop (x f)
  (and (encodingp x f)
       (explicitp f)
       (= (expf x f) 0)
       (= (leading-bit x f) 1)))
(defun normp (x f)
  (and (encodingp x f)
       (< 0 (expf x f))
       (< (expf x f) (greatest-expf f))
       (implies (explicitp f) (= (leading-bit x f) 1))))
(defun infp (x f)
  (and (encodingp x f)
       (= (expf x f) (greatest-expf f))
       (not (unsupp x f))
       (= (manf x f) 0)))
(defun nanp (x f)
  (and (encodingp x f)
       (= (expf x f) (greatest-expf f))
       (not (unsupp x f))
       (not (= (manf x f) 0))))
(defun qnanp (x f)
  (and (nanp x f) (= (bitn x (- (prec f) 2)) 1)))
(defun snanp (x f)
  (and (nanp x f) (= (bitn x (- (prec f) 2)) 0)))

; ---- encodings: a zero and an infinity of a sign, a NaN made quiet
(defun zencode (sgn f) (ash (loghead 1 sgn) (+ (sigw f) (expw f))))
(defun iencode (sgn f)
  (let* ((below (if (explicitp f) (binary-cat 1 1 0 (- (sigw f) 1)) 0))
         (size (if (explicitp f) (+ 1 (- (sigw f) 1)) (sigw f))))
    (binary-cat sgn 1
                (binary-cat (greatest-expf f) (expw f) below size)
                (+ (expw f) size))))
(defun qnanize (x f) (logior x (ash 1 (- (prec f) 2))))
