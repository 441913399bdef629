; A decoder of one byte: three bits of operation, five of operand.
(defun operation (byte) (ash byte -5))
(defun operand (byte) (logand byte #x1f))

(defun mnemonic (byte)
  (case (operation byte)
    (0 'nop)
    (1 'load)
    (2 'store)
    (3 'add)
    (4 'subtract)
    ((5 6) 'branch)
    (otherwise 'trap)))

(value-triple (mnemonic #b10100001))

; No byte is left without an instruction.
(def-gl-thm every-byte-decodes
  :hyp (unsigned-byte-p 8 b)
  :concl (member (mnemonic b) '(nop load store add subtract branch trap))
  :g-bindings (auto-bindings (:nat b 8)))

; The two fields make the byte again, so nothing is lost.
(def-gl-thm fields-make-the-byte
  :hyp (unsigned-byte-p 8 b)
  :concl (equal (+ (ash (operation b) 5) (operand b)) b)
  :g-bindings (auto-bindings (:nat b 8)))
