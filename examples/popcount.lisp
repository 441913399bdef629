; The ones of a word of 32 bits, counted by halves as a circuit does it: pairs of bits, then nibbles, then all nibbles at once by
; a product. The logic's own count is the specification. All 2^32 words at once are decided, by decision diagrams.
(defun count-pairs (x)
  (- x (logand (ash x -1) #x55555555)))

(defun count-nibbles (x)
  (+ (logand x #x33333333) (logand (ash x -2) #x33333333)))

(defun count-word (x)
  (let* ((pairs (count-pairs x))
         (nibbles (count-nibbles pairs))
         (bytes (logand (+ nibbles (ash nibbles -4)) #x0f0f0f0f)))
    (ash (logand (* bytes #x01010101) #xffffffff) -24)))

(def-gl-thm word-count-is-logcount
  :hyp (unsigned-byte-p 32 x)
  :concl (equal (count-word x) (logcount x))
  :g-bindings (auto-bindings (:nat x 32)))
