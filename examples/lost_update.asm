; Lost update: two threads each add 1 to a counter by a load and a store.
; Look for: the counter ends at 1 where the threads' steps alternate, since both have read 0.

.words 1                 ; word 0: the counter

.thread
        load  r1 r0 0    ; read it
        addi  r1 r1 1
        store r1 r0 0    ; and write it back: another thread may have written it since
        out   r1

.thread
        load  r1 r0 0
        addi  r1 r1 1
        store r1 r0 0
        out   r1
