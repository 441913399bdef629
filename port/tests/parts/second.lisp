(in-package "ACL2")
(defun stride (x) (+ x 2))
(defun twice (x) (stride (stride x)))
(defmacro doubled (x) `(+ 1 ,x))
