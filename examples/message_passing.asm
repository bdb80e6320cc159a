; Message passing: one thread writes a value and then a flag, the other waits for the flag and then reads the value.
; Look for: it always puts out 42. In the log the waiting is one entry, however often the flag was read in vain.

.words 2                 ; word 0: the value, word 1: the flag

.thread
        set   r1 42
        store r1 r0 0
        set   r2 1
        store r2 r0 1

.thread
wait:   load  r1 r0 1
        jeq   r1 r0 wait
        load  r2 r0 0
        out   r2
