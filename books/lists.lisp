; Lists, under the names and with the values of ACL2 8.5 and its books std/lists and std/alists. The forms with -eq at
; their ends are those with -equal, as they are in ACL2's logic; `member` is a macro of the language, and these are functions.
;
; The letters of strings and symbols cannot be looked at in the book language. Where ACL2's value depends on them, it is an integer
; too wide for a value here, (ash 1 127), so that nothing is decided by it: the verdict is undecided, width.

; ---- kinds of lists
(defun listp (x) (or (consp x) (equal x nil)))
(defun alistp (l)
  (if (atom l)
      (equal l nil)
    (if (consp (car l)) (alistp (cdr l)) nil)))
(defun atom-listp (l)
  (if (atom l) (equal l nil) (if (atom (car l)) (atom-listp (cdr l)) nil)))
(defun symbol-listp (l)
  (if (atom l) (equal l nil) (if (symbolp (car l)) (symbol-listp (cdr l)) nil)))
(defun boolean-listp (l)
  (if (atom l) (equal l nil) (if (booleanp (car l)) (boolean-listp (cdr l)) nil)))
(defun integer-listp (l)
  (if (atom l) (equal l nil) (if (integerp (car l)) (integer-listp (cdr l)) nil)))
(defun nat-listp (l)
  (if (atom l) (equal l nil) (if (natp (car l)) (nat-listp (cdr l)) nil)))

; ---- elements and parts
(defun mv-nth (n l)
  (if (atom l)
      nil
    (if (zp n) (car l) (mv-nth (- n 1) (cdr l)))))
(defun take (n l)
  (if (zp n)
      nil
    (cons (car l) (take (- n 1) (cdr l)))))
(defun last (l)
  (if (consp l)
      (if (consp (cdr l)) (last (cdr l)) l)
    l))
(defun butlast (l n)
  (let ((size (len l)) (n (nfix n)))
    (if (<= size n)
        nil
      (take (- size n) l))))
; ACL2's guard wants natural start <= end <= length; beyond the list's end both give NIL as elements.
(defun subseq-list (l start end)
  (take (- end start) (nthcdr start l)))
(defun true-list-fix (l)
  (if (consp l) (cons (car l) (true-list-fix (cdr l))) nil))
(defun list-fix (l) (true-list-fix l))
(defun evens (l)
  (if (consp l) (cons (car l) (evens (cddr l))) nil))
(defun odds (l) (evens (cdr l)))
(defun prefixp (x y)
  (if (consp x)
      (and (consp y) (equal (car x) (car y)) (prefixp (cdr x) (cdr y)))
    t))

; ---- lists from lists
(defun revappend (x y)
  (if (endp x) y (revappend (cdr x) (cons (car x) y))))
(defun rev (x)
  (if (consp x) (append (rev (cdr x)) (list (car x))) nil))
; `reverse` of a list; that of a string depends on its letters, but for the empty one.
(defun reverse (x)
  (cond ((not (stringp x)) (revappend x nil))
        ((equal x "") x)
        (t (ash 1 127))))
(defun repeat (n x)
  (if (zp n) nil (cons x (repeat (- n 1) x))))
(defun make-list-ac (n val ac)
  (if (zp n) ac (make-list-ac (- n 1) val (cons val ac))))
(defun resize-list (l n default)
  (if (zp n)
      nil
    (cons (if (atom l) default (car l))
          (resize-list (if (atom l) l (cdr l)) (- n 1) default))))

; ---- membership and sets
(defun member-eq (x l) (member-equal x l))
(defun remove-equal (x l)
  (if (endp l)
      nil
    (if (equal x (car l))
        (remove-equal x (cdr l))
      (cons (car l) (remove-equal x (cdr l))))))
(defun remove (x l) (remove-equal x l))
(defun remove-eq (x l) (remove-equal x l))
(defun remove1-equal (x l)
  (if (endp l)
      nil
    (if (equal x (car l))
        (cdr l)
      (cons (car l) (remove1-equal x (cdr l))))))
(defun remove-duplicates-equal (l)
  (if (endp l)
      nil
    (if (member-equal (car l) (cdr l))
        (remove-duplicates-equal (cdr l))
      (cons (car l) (remove-duplicates-equal (cdr l))))))
(defun no-duplicatesp-equal (l)
  (if (endp l)
      t
    (if (member-equal (car l) (cdr l))
        nil
      (no-duplicatesp-equal (cdr l)))))
(defun subsetp-equal (x y)
  (if (endp x)
      t
    (and (member-equal (car x) y)
         (subsetp-equal (cdr x) y))))
(defun union-equal (x y)
  (if (endp x)
      y
    (if (member-equal (car x) y)
        (union-equal (cdr x) y)
      (cons (car x) (union-equal (cdr x) y)))))
(defun intersection-equal (x y)
  (if (endp x)
      nil
    (if (member-equal (car x) y)
        (cons (car x) (intersection-equal (cdr x) y))
      (intersection-equal (cdr x) y))))
(defun set-difference-equal (x y)
  (if (endp x)
      nil
    (if (member-equal (car x) y)
        (set-difference-equal (cdr x) y)
      (cons (car x) (set-difference-equal (cdr x) y)))))
(defun add-to-set-equal (x l)
  (if (member-equal x l) l (cons x l)))
(defun position-equal-ac (x l n)
  (if (endp l)
      nil
    (if (equal x (car l))
        (ifix n)
      (position-equal-ac x (cdr l) (+ 1 n)))))
; The place of x in a list, from 0, or NIL; that of a character in a string depends on its letters, but for the empty one.
(defun position-equal (x l)
  (if (and (stringp l) (characterp x) (not (equal l "")))
      (ash 1 127)
    (position-equal-ac x l 0)))
(defun duplicity (x l)
  (if (atom l)
      0
    (+ (if (equal x (car l)) 1 0)
       (duplicity x (cdr l)))))

; ---- association lists
(defun acons (key val alist) (cons (cons key val) alist))
(defun assoc (x alist) (assoc-equal x alist))
(defun assoc-eq (x alist) (assoc-equal x alist))
(defun rassoc-equal (x alist)
  (if (endp alist)
      nil
    (if (equal x (cdr (car alist)))
        (car alist)
      (rassoc-equal x (cdr alist)))))
(defun pairlis$ (x y)
  (if (endp x)
      nil
    (cons (cons (car x) (car y))
          (pairlis$ (cdr x) (cdr y)))))
(defun strip-cars (x)
  (if (endp x) nil (cons (car (car x)) (strip-cars (cdr x)))))
(defun strip-cdrs (x)
  (if (endp x) nil (cons (cdr (car x)) (strip-cdrs (cdr x)))))
(defun put-assoc-equal (key val alist)
  (if (endp alist)
      (list (cons key val))
    (if (equal key (car (car alist)))
        (cons (cons key val) (cdr alist))
      (cons (car alist) (put-assoc-equal key val (cdr alist))))))
; The alist without any pair of the key, and without the first such pair alone.
(defun remove-assoc-equal (key alist)
  (if (endp alist)
      nil
    (if (equal key (car (car alist)))
        (remove-assoc-equal key (cdr alist))
      (cons (car alist) (remove-assoc-equal key (cdr alist))))))
(defun remove1-assoc-equal (key alist)
  (if (endp alist)
      nil
    (if (equal key (car (car alist)))
        (cdr alist)
      (cons (car alist) (remove1-assoc-equal key (cdr alist))))))

; ---- the order of objects: of atoms, and of all. That of two different strings, and of two different symbols other than T and NIL,
; depends on their letters. Two conses, which are no atoms, are in no order of atoms.
(defun alphorder (x y)
  (cond ((integerp x) (if (integerp y) (<= x y) t))
        ((integerp y) nil)
        ((characterp x)
         (if (characterp y) (<= (char-code x) (char-code y)) t))
        ((characterp y) nil)
        ((stringp x)
         (cond ((not (stringp y)) t)
               ((or (equal x y) (equal x "")) t)
               ((equal y "") nil)
               (t (ash 1 127))))
        ((stringp y) nil)
        ((symbolp x)
         (cond ((or (consp y) (equal x y)) t)
               ((and (booleanp x) (booleanp y)) (equal y t))
               (t (ash 1 127))))
        (t nil)))
(defun lexorder (x y)
  (cond ((atom x) (if (atom y) (alphorder x y) t))
        ((atom y) nil)
        ((equal (car x) (car y)) (lexorder (cdr x) (cdr y)))
        (t (lexorder (car x) (car y)))))
