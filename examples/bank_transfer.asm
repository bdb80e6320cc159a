; Bank transfer: two threads move money between two accounts, under a spin lock made of a compare-exchange.
; Look for: the accounts end at 45 and 55, and their sum is 100, whichever thread has the lock first.

.words 3                 ; word 0: the lock, 0 or 1; words 1 and 2: the accounts
.init 1 50
.init 2 50

.thread                  ; moves 10 from word 1 to word 2
        set   r2 1
lock:   set   r3 0       ; the lock is to be 0 ...
        cas   r3 r0 r2 0 ; ... and becomes 1
        jne   r15 r2 lock
        set   r6 10
        load  r4 r0 1
        sub   r4 r4 r6
        store r4 r0 1
        load  r5 r0 2
        add   r5 r5 r6
        store r5 r0 2
        store r0 r0 0    ; the lock is 0 again

.thread                  ; moves 5 from word 2 to word 1
        set   r2 1
lock:   set   r3 0
        cas   r3 r0 r2 0
        jne   r15 r2 lock
        set   r6 5
        load  r4 r0 2
        sub   r4 r4 r6
        store r4 r0 2
        load  r5 r0 1
        add   r5 r5 r6
        store r5 r0 1
        store r0 r0 0
