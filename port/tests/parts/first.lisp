(in-package "ACL2")
(defun stride (x) (+ x 1))
(defun twice (x) (stride (stride x)))
(defmacro doubled (x) `(* 2 ,x))
