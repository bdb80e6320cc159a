; Two flags: each thread raises its flag and waits for the other one.
; Look for: both halt. If one thread ran to its end before the other began, it would wait until its steps are spent.

.words 2                 ; words 0 and 1: the flags

.thread
        set   r1 1
        store r1 r0 0
wait:   load  r2 r0 1
        jeq   r2 r0 wait

.thread
        set   r1 1
        store r1 r0 1
wait:   load  r2 r0 0
        jeq   r2 r0 wait
