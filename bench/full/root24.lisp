; the square root of 24 bits, two bits at a time
(defun root-from (n x rest root)
  (if (zp n)
      (list root rest)
    (let* ((next (+ (* 4 rest) (logand 3 (ash x (- (* 2 (- n 1)))))))
           (try (+ (* 4 root) 1)))
      (if (< next try)
          (root-from (- n 1) x next (* 2 root))
        (root-from (- n 1) x (- next try) (+ 1 (* 2 root)))))))
(def-gl-thm root-is-below
  :hyp (unsigned-byte-p 24 x)
  :concl (let ((root (car (root-from 12 x 0 0))))
           (and (<= (* root root) x) (< x (* (+ root 1) (+ root 1)))))
  :g-bindings (auto-bindings (:nat x 24)))
