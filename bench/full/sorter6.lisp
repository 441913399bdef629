; a sorting network of six elements of 4 bits
(defun pick (n l) (if (zp n) (car l) (pick (- n 1) (cdr l))))
(defun put (n x l) (if (zp n) (cons x (cdr l)) (cons (car l) (put (- n 1) x (cdr l)))))
(defun swap (i j l)
  (let ((a (pick i l)) (b (pick j l)))
    (put i (if (< b a) b a) (put j (if (< b a) a b) l))))
(defun network (l)
  (swap 3 4 (swap 1 2 (swap 4 5 (swap 2 3 (swap 0 1 (swap 2 5 (swap 0 3 (swap 3 4 (swap 1 2 (swap 2 4 (swap 1 3 (swap 0 5 l)))))))))))))
(defun ordered (l) (if (atom l) t (if (atom (cdr l)) t (if (< (car (cdr l)) (car l)) nil (ordered (cdr l))))))
(def-gl-thm network-orders
  :hyp (and (signed-byte-p 4 a) (signed-byte-p 4 b) (signed-byte-p 4 c) (signed-byte-p 4 d) (signed-byte-p 4 e) (signed-byte-p 4 f))
  :concl (ordered (network (list a b c d e f)))
  :g-bindings (auto-bindings (:mix (:int a 4) (:int b 4) (:int c 4) (:int d 4) (:int e 4) (:int f 4))))
