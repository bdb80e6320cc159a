; Counter: two threads each add 1 to a counter a thousand times, by a load and a store.
; Look for: the counter ends below 2000 where an update was lost. That happens only sometimes: see examples/catch.

.words 1                 ; word 0: the counter

.thread
        set   r2 1000    ; so many times
        set   r3 1
again0: load  r1 r0 0    ; read it
        addi  r1 r1 1
        store r1 r0 0    ; and write it back: another thread may have written it since
        sub   r2 r2 r3
        jne   r2 r0 again0

.thread
        set   r2 1000
        set   r3 1
again1: load  r1 r0 0
        addi  r1 r1 1
        store r1 r0 0
        sub   r2 r2 r3
        jne   r2 r0 again1
