; Symbolic runs whose depth, length or sharing would be too much for a walk that nests or goes through a part twice.
(defun copies (n x) (if (zp n) nil (cons x (copies (- n 1) x))))
(defun bytes (n x) (if (zp n) nil (cons (logxor (logand n 255) x) (bytes (- n 1) x))))
(defun tree (n x) (if (zp n) x (let ((part (tree (- n 1) x))) (cons part part))))
(defun flips (n x) (if (zp n) x (logxor 1 (flips (- n 1) x))))
; 100,000 definitions opened inside one another, where each test is constant
(def-gl-thm deep :hyp (signed-byte-p 4 x) :concl (equal (flips 100000 x) x) :g-bindings (auto-bindings (:int x 4)))
; two lists of 10,000 symbolic bytes
(def-gl-thm equal-lists :hyp (and (signed-byte-p 8 x) (signed-byte-p 8 y)) :concl (equal (equal (bytes 10000 x) (bytes 10000 y)) (equal x y)) :g-bindings (auto-bindings (:mix (:int x 8) (:int y 8))))
; two trees of 2^60 shared leaves, one of them by a test
(def-gl-thm merged-trees :hyp (and (booleanp b) (signed-byte-p 4 x) (signed-byte-p 4 y)) :concl (equal (if b (tree 60 x) (tree 60 y)) (tree 60 (if b x y))) :g-bindings (auto-bindings (:boolean b) (:int x 4) (:int y 4)))
; two lists of 20,000 symbolic integers, one of them by a test
(def-gl-thm merged-lists :hyp (and (booleanp b) (signed-byte-p 4 x) (signed-byte-p 4 y)) :concl (equal (if b (copies 20000 x) (copies 20000 y)) (copies 20000 (if b x y))) :g-bindings (auto-bindings (:boolean b) (:int x 4) (:int y 4)))
; a call on constants is left to the evaluator, which has no clock
(def-gl-thm constant-call :hyp (signed-byte-p 4 x) :concl (consp (cons x (copies 50 1))) :concl-clk 1 :g-bindings (auto-bindings (:int x 4)))
(gl::gl-satlink-mode)
(def-gl-thm deep-by-search :hyp (signed-byte-p 4 x) :concl (equal (flips 100000 x) x) :g-bindings (auto-bindings (:int x 4)))
(def-gl-thm equal-lists-by-search :hyp (and (signed-byte-p 8 x) (signed-byte-p 8 y)) :concl (equal (equal (bytes 10000 x) (bytes 10000 y)) (equal x y)) :g-bindings (auto-bindings (:mix (:int x 8) (:int y 8))))
(def-gl-thm merged-trees-by-search :hyp (and (booleanp b) (signed-byte-p 4 x) (signed-byte-p 4 y)) :concl (equal (if b (tree 60 x) (tree 60 y)) (tree 60 (if b x y))) :g-bindings (auto-bindings (:boolean b) (:int x 4) (:int y 4)))
(def-gl-thm merged-lists-by-search :hyp (and (booleanp b) (signed-byte-p 4 x) (signed-byte-p 4 y)) :concl (equal (if b (copies 20000 x) (copies 20000 y)) (copies 20000 (if b x y))) :g-bindings (auto-bindings (:boolean b) (:int x 4) (:int y 4)))
(def-gl-thm constant-call-by-search :hyp (signed-byte-p 4 x) :concl (consp (cons x (copies 50 1))) :concl-clk 1 :g-bindings (auto-bindings (:int x 4)))
