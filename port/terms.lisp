; From terms of ACL2's world to terms of the book language.
;
; A term here is a variable (a symbol of ACL2), (quote x), (:let ((v . term) ..) term), or a call (f . terms), where f is the name of
; something that the language has (a string), or a DEFINITION.

(in-package "GLPORT")
; ---- what the language has, by ACL2's full names
(defun words (text)
  (let ((*package* (find-package "ACL2"))) (with-input-from-string (in text) (loop for x = (read in nil :end) until (eq x :end) collect x))))
; ACL2's own functions. The name in the language is the symbol's.
(defparameter *own* (words "
  consp integerp symbolp stringp characterp cons car cdr equal not char-code code-char binary-+ binary-* unary-- < floor mod truncate
  rem ash binary-logand binary-logior binary-logxor lognot logbitp integer-length unsigned-byte-p signed-byte-p
  atom endp null eq eql = hons-equal zp zip natp posp nfix ifix zerop plusp minusp min max abs evenp oddp booleanp implies iff xor len
  true-listp binary-append nth nthcdr update-nth member-equal assoc-equal logcount hons hons-copy hons-acons make-fast-alist
  fast-alist-free hons-assoc-equal hons-get fast-alist-fork if"))
; Functions of the shipped books: those of ACL2 itself, and those of its own books by the folder in which ACL2 has them.
(defparameter *shipped* '(("arithmetic" . "acl2-numberp rationalp fix rfix int= signum nonnegative-integer-quotient ceiling round ifloor imod")
  ("bitops" . "bitp bfix zbp bool->bit bit->bool b-not b-and b-ior b-xor b-eqv b-nand b-nor b-andc1 b-andc2 b-orc1 b-orc2
    binary-logeqv lognand lognor logandc1 logandc2 logorc1 logorc2 logtest logcar logcdr logcons logbit logmask logmaskp loghead
    logtail logapp logrpl logext logextu lognotu logsat ashu lshu logrev1 logrev bitops::logrepeat
    bitops::part-select-width-low bitops::part-select-low-high bitops::part-install-width-low bitops::part-install-low-high
    bitops::nth-slice bitops::update-nth-slice bitops::install-bit setbit clearbit notbit bitops::rotate-left bitops::rotate-right
    bitops::bitscan-fwd bitops::bitscan-rev bitops::trailing-0-count bitops::trailing-1-count bitops::parity")
  ("lists" . "listp alistp atom-listp symbol-listp boolean-listp integer-listp nat-listp mv-nth take last butlast subseq-list
    true-list-fix evens odds prefixp revappend rev repeat make-list-ac resize-list remove-equal remove1-equal remove-duplicates-equal
    no-duplicatesp-equal subsetp-equal union-equal intersection-equal set-difference-equal add-to-set-equal position-equal-ac
    duplicity acons rassoc-equal pairlis$ strip-cars strip-cdrs put-assoc-equal remove-assoc-equal remove1-assoc-equal")
  ("rtl" . "rtl::fl rtl::bvecp rtl::bits rtl::bitn rtl::binary-cat rtl::setbits rtl::setbitn rtl::expo rtl::sgn")))
(defparameter *folders* '("ihs/" "centaur/bitops/" "std/basic/" "std/lists/" "std/alists/" "rtl/rel11/lib/" "rtl/rel11/rel9-rtl-pkg/lib/"))
(defvar *shipped-table* nil "full name -> (book . name)")
(defun split (text &optional (gaps '(#\Space #\Newline)))
  (loop for start = (position-if-not #'(lambda (c) (member c gaps)) text) then (and end (position-if-not #'(lambda (c) (member c gaps)) text :start end))
        while start
        for end = (position-if #'(lambda (c) (member c gaps)) text :start start) collect (subseq text start end)))
(defun shipped-table ()
  (or *shipped-table*
      (let ((table (make-hash-table :test 'equal)))
        (dolist (entry *shipped* (setq *shipped-table* table))
          (dolist (name (split (cdr entry)))
            (let* ((at (search "::" name)) (short (if at (subseq name (+ at 2)) name)) (value (cons (car entry) short)))
              (dolist (package (if at (list (string-upcase (subseq name 0 at))) '("ACL2" "COMMON-LISP")))
                (dolist (end '("" "$INLINE"))
                  (setf (gethash (concatenate 'string package "::" (string-upcase short) end) table) value)))))))))
(defvar *system-folder* nil)
(defun own-p (fn w)
  "Whether a function is one of ACL2's, as ACL2 starts with it."
  (and (property fn 'acl2::predefined *base-world*)
       (equal (property fn 'acl2::unnormalized-body w) (property fn 'acl2::unnormalized-body *base-world*))))
(defun book-path (fn w) (acl2::global-val 'acl2::include-book-path (acl2::decode-logical-name fn w)))
(defun system-path (path)
  "The path of an included book below the folder of ACL2's own books, or NIL."
  (cond ((consp path) (and (eq (car path) :system) (cdr path))) ((and path (eql (mismatch *system-folder* path) (length *system-folder*))) (subseq path (length *system-folder*)))))
(defun of-system-p (fn w)
  (let ((path (system-path (car (book-path fn w)))))
    (and path (some #'(lambda (folder) (eql (mismatch folder path) (length folder))) *folders*))))
(defun language-name (fn w)
  "The name of a function of the language with the meaning of a function of this world, and the shipped book that has it."
  (if (and (member fn *own*) (own-p fn w)) (string-downcase (symbol-name fn))
    (let ((found (gethash (concatenate 'string (acl2::symbol-package-name fn) "::" (symbol-name fn)) (shipped-table))))
      (and found (or (own-p fn w) (of-system-p fn w)) (values (cdr found) (car found))))))
; ---- definitions
(defstruct (definition (:print-function (lambda (d s k) (declare (ignore k)) (format s "#<~a>" (definition-sym d)))))
  sym formals raw body callees clique number place book token measure counted world (twin (list nil)))
(defvar *instances* nil "symbol -> definitions, the last first")
(defvar *reached* nil "the symbols' definitions in the world that is looked at")
(define-condition refused (error) ((why :initarg :why :reader why)) (:report (lambda (c s) (format s "~a" (why c)))))
(defun refuse (text &rest args) (error 'refused :why (let ((*print-pretty* nil)) (apply #'format nil text args))))
; What is no call of a definition: see CALL-OF.
(defparameter *special* (words "
  hide synp expt unary-/ numerator denominator realpart imagpart complex-rationalp
  symbol< hard-error illegal fmt-to-comment-window wormhole-eval throw-nonexec-error force"))
; What leaves the language where it is reached, whether it has a body or not.
(defparameter *beyond* (words "
  coerce symbol-name symbol-package-name intern-in-package-of-symbol pkg-imports pkg-witness complex bad-atom<= apply$ ev$"))
(defun special-p (fn w) (and (member fn *special*) (own-p fn w)))
(defun logic-of (term) "The term without what is there for guards alone." (acl2::remove-guard-holders-weak term nil))
(defun body-in (fn w)
  (let ((body (and (not (member fn *beyond*)) (not (property fn 'acl2::constrainedp w)) (property fn 'acl2::unnormalized-body w))))
    (and body (logic-of body))))
(defun kind-of (fn w)
  (cond ((special-p fn w) :special)
        ((language-name fn w) :language)
        ((body-in fn w) :defined)
        (t :beyond)))
(defun definition-of (fn w)
  "The definition that a symbol has in this world: the same object where the definitions that it reaches are the same too."
  (or (gethash fn *reached*)
      (let* ((clique (or (property fn 'acl2::recursivep w) (list fn)))
             (callees (remove-if #'(lambda (g) (member g clique))
                                 (let (found) (dolist (g clique found) (setq found (acl2::all-fnnames1 nil (body-in g w) found))))))
             (below (loop for g in callees when (eq (kind-of g w) :defined) collect (definition-of g w)))
             (same (find-if #'(lambda (d) (and (equal (mapcar #'definition-sym (definition-clique d)) clique)
                                               (every #'(lambda (g) (equal (body-in (definition-sym g) w) (definition-raw g))) (definition-clique d))
                                               (every #'(lambda (g) (equal (property (definition-sym g) 'acl2::formals w) (definition-formals g))) (definition-clique d))
                                               (null (set-exclusive-or below (definition-callees d)))
                                               (every #'(lambda (g) (equal (kind-of g w) (kind-of g (definition-world d)))) callees)))
                            (gethash fn *instances*)))
             (made (or (and same (definition-clique same))
                       (loop for g in clique
                             collect (make-definition :sym g :formals (property g 'acl2::formals w) :raw (body-in g w) :callees below :world w
                                                      :number (property g 'acl2::absolute-event-number w)
                                                      :place (cons (place-of-event (property g 'acl2::absolute-event-number w)) (book-path g w)))))))
        (dolist (d made)
          (setf (gethash (definition-sym d) *reached*) d)
          (unless same (setf (definition-clique d) made) (push d (gethash (definition-sym d) *instances*))))
        (unless same (dolist (d made) (setf (definition-body d) (convert (definition-raw d) w)))) (gethash fn *reached*))))
; ---- terms
(defun beyond (why) (list "beyond-the-language" (list 'quote why)))
(defun quoted-p (x) (and (consp x) (eq (car x) 'quote)))
(defun call-p (x name) (and (consp x) (equal (car x) name)))
(defun convert (term w)
  (cond ((symbolp term) term)
        ((quoted-p term) (object-term (second term)))
        ((consp (car term))
         (let* ((body (convert (third (car term)) w))
                (bindings (loop for v in (second (car term)) for x in (cdr term) for value = (convert x w)
                                unless (or (eq v x) (and (or (symbolp value) (quoted-p value)) (not (mentions-p body (list v))))) collect (cons v value))))
           (if bindings (list :let bindings body) body)))
        (t (call-of (car term) (cdr term) w))))
(defun object-term (x)
  (cond ((expressible-p x) (list 'quote x))
        ((characterp x) (list "code-char" (list 'quote (char-code x))))
        ((consp x) (list "cons" (object-term (car x)) (object-term (cdr x))))
        (t (beyond (object-words x)))))
(defun ground-call (fn args)
  "The value of a call on constants, where the language has it, in a quote; or NIL."
  (and args (every #'quoted-p args)
       (multiple-value-bind (value found) (evaluate-in-acl2 (cons fn args) nil) (and found (expressible-p value) (list 'quote value)))))
(defun call-of-definition (d args)
  "A call; its value, where it is on constants and could leave the language on the way."
  (or (and args (every #'quoted-p args) (find "beyond-the-language" (words-of (list (list d))) :test #'string=) (ground-call (definition-sym d) args))
      (cons d args)))
(defun call-of (fn args w)
  (if (special-p fn w) (special-call fn args w)
    (let ((name (language-name fn w)))
      (cond ((equal name "floor") (floor-of (first args) (second args) w))
            ((and (equal name "fl") (not (symbolp (first args)))) (floor-of (first args) ''1 w))
            ((and (equal name "integerp") (ratio-by-literal (first args) w)))
            ((equal name "binary-*") (product (first args) (second args) w))
            (name (cons name (convert-all args w)))
            ((body-in fn w) (call-of-definition (definition-of fn w) (convert-all args w)))
            (t (or (ground-call fn (convert-all args w))
                   (beyond (format nil "~a~a" (symbol-name fn) (if (member fn *beyond*) "" ", which has no definition")))))))))
(defun convert-all (terms w) (loop for x in terms collect (convert x w)))
(defun special-call (fn args w)
  (flet ((x () (convert (first args) w)))
    (case fn
      ((acl2::hide acl2::force) (x)) (acl2::synp ''t) (acl2::symbol< (cons "symbol<" (convert-all args w)))
      (acl2::expt (power (first args) (second args) w)) (acl2::unary-/ (quotient ''1 (first args) w))
      ((acl2::numerator acl2::realpart) (list "ifix" (x))) (acl2::denominator (list "if" (x) ''1 ''1))
      (acl2::imagpart (list "if" (x) ''0 ''0)) (acl2::complex-rationalp (list "if" (x) ''nil ''nil)) (t ''nil))))
; ---- ratios. The universe has none, so a quotient stands where its value is an integer, and elsewhere leaves the language. The floor of
; a quotient is an integer always, and so is that of a product with a power of two, which is a shift.
(defun reciprocal (x) (and (consp x) (eq (car x) 'acl2::unary-/) (second x)))
(defun ratio-literal-p (x) (and (quoted-p x) (typep (second x) 'ratio)))
(defun as-ratio (x)
  "Two terms of ACL2 whose quotient X is, as it is written, or NIL."
  (cond ((ratio-literal-p x) (values (list 'quote (numerator (second x))) (list 'quote (denominator (second x)))))
        ((reciprocal x) (values ''1 (reciprocal x)))
        ((and (consp x) (eq (car x) 'acl2::binary-*))
         (destructuring-bind (a b) (cdr x)
           (cond ((and (or (reciprocal a) (ratio-literal-p a)) (not (or (reciprocal b) (ratio-literal-p b)))) (as-ratio (list 'acl2::binary-* b a)))
                 ((reciprocal b) (values a (reciprocal b)))
                 ((ratio-literal-p b)
                  (multiple-value-bind (above below) (as-ratio b)
                    (values (if (equal above ''1) a (list 'acl2::binary-* above a)) below))))))))
(defun power-of-two (x) (and (consp x) (eq (car x) 'acl2::expt) (equal (second x) ''2) (third x)))
(defun floor-of (x y w)
  (if (not (equal y ''1)) (list "floor" (convert x w) (convert y w))
    (multiple-value-bind (above below) (as-ratio x)
      (cond (above (list "floor" (convert above w) (convert below w)))
            ((and (consp x) (eq (car x) 'acl2::binary-*) (some #'power-of-two (cdr x)))
             (destructuring-bind (i power) (if (power-of-two (third x)) (cdr x) (reverse (cdr x)))
               (list "ash" (convert i w) (convert (power-of-two power) w))))
            (t (list "ifix" (convert x w)))))))
(defun ratio-by-literal (x w)
  (multiple-value-bind (above below) (as-ratio x)
    (and above (quoted-p below) (integerp (second below)) (/= 0 (second below)) (list "equal" (list "mod" (convert above w) below) ''0))))
(defun quotient (a b w) (list "quotient" (convert a w) (convert b w)))
(defun product (a b w)
  (multiple-value-bind (above below) (as-ratio (list 'acl2::binary-* a b))
    (if above (quotient above below w) (list "binary-*" (convert a w) (convert b w)))))
(defun power (r i w)
  (cond ((and (quoted-p r) (quoted-p i) (integerp (second r)) (natp (second i)) (< (second i) 10000))
         (convert (list 'quote (expt (second r) (second i))) w))
        ((equal r ''2) (list "power-of-2" (convert i w)))
        (t (list "power" (convert r w) (convert i w)))))
(defun natp (x) (and (integerp x) (>= x 0)))
; Functions that a book gets where it needs them.
(defparameter *helpers* '(
  ("symbol<" nil "; The place of each symbol of this book in ACL2's order.
(defconst *symbols* '~a)
(defun symbol< (x y)
  (let ((a (assoc-equal x *symbols*)) (b (assoc-equal y *symbols*))) (if (and a b) (< (cdr a) (cdr b)) (beyond-the-language 'a-symbol))))")
  ("power-of-2" nil "(defun power-of-2 (n) (if (and (integerp n) (< n 0)) (beyond-the-language 'a-ratio) (ash 1 n)))")
  ("power" "arithmetic" "(defun power (r n) (if (and (integerp n) (< n 0)) (beyond-the-language 'a-ratio) (expt r n)))")
  ("quotient" nil "(defun quotient (x y) (if (equal (ifix y) 0) 0 (if (equal (mod x y) 0) (floor x y) (beyond-the-language 'a-ratio))))")
  ("beyond-the-language" nil "(defun beyond-the-language (why) (ash 1 128))")))
; ---- objects
(defun expressible-p (x)
  (loop while (consp x) do (unless (expressible-p (pop x)) (return-from expressible-p nil)))
  (cond ((integerp x) (< (integer-length x) 128))
        ((stringp x) (every #'(lambda (c) (or (<= 32 (char-code c) 126) (member (char-code c) '(9 10 13)))) x))
        ((characterp x) (or (<= 32 (char-code x) 126) (member (char-code x) '(9 10 12 13 127))))
        (t (symbolp x))))
(defun object-words (x)
  (cond ((integerp x) (format nil "the integer ~a, outside of 128 bits" x))
        ((stringp x) "a string with other letters than the language has")
        (t (format nil "the number ~a" x))))
