; A barrel shifter of 32 bits: five stages, each of which shifts by a power of two or not at all.
(defun stage (on places x)
  (if on (logand #xffffffff (ash x places)) x))

(defun barrel (x s)
  (stage (logbitp 0 s) 1
         (stage (logbitp 1 s) 2
                (stage (logbitp 2 s) 4
                       (stage (logbitp 3 s) 8
                              (stage (logbitp 4 s) 16 x))))))

; The few bits that choose stand first in the order of the diagrams.
(def-gl-thm barrel-shifts-left
  :hyp (and (unsigned-byte-p 32 x) (unsigned-byte-p 5 s))
  :concl (equal (barrel x s) (logand #xffffffff (ash x s)))
  :g-bindings (auto-bindings (:nat s 5) (:nat x 32)))
