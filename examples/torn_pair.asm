; Torn pair: two words belong together, and are written by two stores and read by two loads.
; Look for: the reader puts out 0 and then 1, halves of two pairs. With a lock or one word for both it could not.

.words 2                 ; words 0 and 1: the pair, which is 0 and 0, and then 1 and 1

.thread                  ; writes the pair
        set   r1 1
        store r1 r0 0
        store r1 r0 1

.thread                  ; reads the pair, its second half first
        load  r2 r0 1
        load  r1 r0 0
        out   r2
        out   r1
