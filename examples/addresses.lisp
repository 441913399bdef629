; Addresses of a processor of 64 bits, as its models bound them: a register has 64 bits, of which an address uses few.
(in-package "ACL2")
(include-book "centaur/gl/gl" :dir :system)

(defun canonical-address-p (a) (signed-byte-p 48 a))
(defun physical-address-p (a) (and (natp a) (< a (ash 1 36))))
(defun page-of (a) (ash a -12))
(defun offset-of (a) (logand a 4095))

; Each conclusion is run on registers that meet the bound already: bits that it leaves no choice are constants or copies.
(gl-param-mode)

(def-gl-thm canonical-sign
  :hyp (and (signed-byte-p 64 a) (canonical-address-p a))
  :concl (equal (ash a -47) (if (< a 0) -1 0))
  :g-bindings (auto-bindings (:int a 64)))

(def-gl-thm parts-of-an-address
  :hyp (and (unsigned-byte-p 64 a) (physical-address-p a))
  :concl (equal (+ (* 4096 (page-of a)) (offset-of a)) a)
  :g-bindings (auto-bindings (:nat a 64)))

(def-gl-thm last-byte-of-a-word
  :hyp (and (unsigned-byte-p 64 a) (< a (- (ash 1 36) 7)))
  :concl (physical-address-p (+ a 7))
  :g-bindings (auto-bindings (:nat a 64)))

; One address too many: the last byte of the word lies behind the memory.
(def-gl-thm last-byte-of-a-word-but-one
  :hyp (and (unsigned-byte-p 64 a) (< a (- (ash 1 36) 6)))
  :concl (physical-address-p (+ a 7))
  :g-bindings (auto-bindings (:nat a 64)))

(def-gl-thm aligned-word-stays-on-its-page
  :hyp (and (unsigned-byte-p 64 a) (physical-address-p a) (equal (logand a 7) 0))
  :concl (equal (page-of (+ a 7)) (page-of a))
  :g-bindings (auto-bindings (:nat a 64)))

; On one page, so 12 bits are left: two bytes stay on it, but for those that begin at its last one.
(def-gl-thm two-bytes-stay-on-their-page
  :hyp (and (unsigned-byte-p 64 a) (equal (page-of a) 74565))
  :concl (equal (page-of (+ a 1)) 74565)
  :g-bindings (auto-bindings (:nat a 64)))

(def-gl-thm store-leaves-later-addresses
  :hyp (and (unsigned-byte-p 64 a) (unsigned-byte-p 64 b) (unsigned-byte-p 3 i)
            (physical-address-p b) (< (+ a 7) b))
  :concl (not (equal (+ a i) b))
  :g-bindings (auto-bindings (:mix (:nat a 64) (:nat b 64)) (:nat i 3)))
