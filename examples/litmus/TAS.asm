; TAS (test and set): two threads each exchange 1 for what stands in a lock. Only one has found it free.
; Forbidden: 0:r1=0 /\ 1:r1=0
; A round's words: x go0 go1

.words 300                  ; for a hundred rounds, each on words of its own

.thread
        set   r10 1
        set   r14 300       ; the words of all rounds
round:  store r10 r12 1     ; the barrier: this thread is here ...
wait:   load  r9 r12 2      ; ... and waits for the other one
        jeq   r9 r0 wait
        set   r1 1
        xchg  r1 r12 0      ; x = 1, and r1 = what it was
        out   r1
        addi  r12 r12 3     ; the next round
        jlt   r12 r14 round

.thread
        set   r10 1
        set   r14 300       ; the words of all rounds
round:  store r10 r12 2
wait:   load  r9 r12 1
        jeq   r9 r0 wait
        set   r1 1
        xchg  r1 r12 0      ; x = 1, and r1 = what it was
        out   r1
        addi  r12 r12 3
        jlt   r12 r14 round
