; Store buffering: each thread writes its own word and then reads the other one.
; Look for: at least one thread reads 1, in every order of the steps. A machine whose stores may be late could show 0 twice.

.words 2                 ; words 0 and 1: one for each thread

.thread
        set   r1 1
        store r1 r0 0
        load  r2 r0 1
        out   r2

.thread
        set   r1 1
        store r1 r0 1
        load  r2 r0 0
        out   r2
