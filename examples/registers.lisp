; A file of registers of 32 bits as a fast alist: writing puts a pair in front, reading finds the first one.
(defun write-register (name value file)
  (hons-acons name value file))

(defun read-register (name file)
  (let ((pair (hons-get name file)))
    (if pair (cdr pair) 0)))

; name := name xor other
(defun xor-into (name other file)
  (write-register name
                  (logxor (read-register name file) (read-register other file))
                  file))

(defun swapped (file)
  (xor-into 'a 'b (xor-into 'b 'a (xor-into 'a 'b file))))

(value-triple (read-register 'a (swapped (write-register 'b 2 (write-register 'a 1 nil)))))

; Three exclusive ors swap two registers.
(def-gl-thm xors-swap
  :hyp (and (unsigned-byte-p 32 x) (unsigned-byte-p 32 y))
  :concl (let ((file (swapped (write-register 'b y (write-register 'a x nil)))))
           (and (equal (read-register 'a file) y)
                (equal (read-register 'b file) x)))
  :g-bindings (auto-bindings (:mix (:nat x 32) (:nat y 32))))
