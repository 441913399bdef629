(in-package "RTL")
(include-book "rtl/rel11/lib/rac" :dir :system)
(include-book "centaur/gl/gl" :dir :system)

; RTL's slices. The book's package comes from the books that it includes.
(gl::def-gl-thm slices-join
  :hyp (bvecp x 16)
  :concl (and (equal (cat (bits x 15 8) 8 (bits x 7 0) 8) x)
              (equal (cat (bitn x 15) 1 (bits x 14 8) 7 (cat x 8) 8) x)
              (equal (bitn (setbitn x 16 3 1) 3) 1)
              (equal (bits (setbits x 16 11 4 255) 11 4) 255)
              (bvecp (fl (/ x 4)) 14))
  :g-bindings (gl::auto-bindings (:nat x 16)))
