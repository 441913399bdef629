; A network of five comparators that sorts four numbers of six bits.
(defun sorted (a b c d)
  (let* ((low1 (min a b)) (high1 (max a b))
         (low2 (min c d)) (high2 (max c d))
         (middle1 (max low1 low2)) (middle2 (min high1 high2)))
    (list (min low1 low2) (min middle1 middle2) (max middle1 middle2) (max high1 high2))))

(defun ascends (l)
  (cond ((atom l) t)
        ((atom (cdr l)) t)
        (t (and (<= (car l) (cadr l)) (ascends (cdr l))))))

(defun times (x l)
  (cond ((atom l) 0)
        ((equal x (car l)) (+ 1 (times x (cdr l))))
        (t (times x (cdr l)))))

(def-gl-thm output-ascends
  :hyp (and (unsigned-byte-p 6 a) (unsigned-byte-p 6 b) (unsigned-byte-p 6 c) (unsigned-byte-p 6 d))
  :concl (ascends (sorted a b c d))
  :g-bindings (auto-bindings (:mix (:nat a 6) (:nat b 6) (:nat c 6) (:nat d 6))))

; Each number comes out as often as it goes in.
(def-gl-thm nothing-is-lost
  :hyp (and (unsigned-byte-p 6 a) (unsigned-byte-p 6 b) (unsigned-byte-p 6 c) (unsigned-byte-p 6 d) (unsigned-byte-p 6 x))
  :concl (equal (times x (sorted a b c d)) (times x (list a b c d)))
  :g-bindings (auto-bindings (:mix (:nat a 6) (:nat b 6) (:nat c 6) (:nat d 6) (:nat x 6))))
