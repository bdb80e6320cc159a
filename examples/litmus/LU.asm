; LU (lost update): two threads each add 1 to a word, by a load and a store. An update may be lost.
; Allowed: [x]=1
; A round's words: x go0 go1

.words 300                  ; for a hundred rounds, each on words of its own

.thread
        set   r10 1
        set   r14 300       ; the words of all rounds
round:  store r10 r12 1     ; the barrier: this thread is here ...
wait:   load  r9 r12 2      ; ... and waits for the other one
        jeq   r9 r0 wait
        load  r1 r12 0      ; r1 = x
        addi  r2 r1 1
        store r2 r12 0      ; x = r1 + 1
        out   r1
        addi  r12 r12 3     ; the next round
        jlt   r12 r14 round

.thread
        set   r10 1
        set   r14 300       ; the words of all rounds
round:  store r10 r12 2
wait:   load  r9 r12 1
        jeq   r9 r0 wait
        load  r1 r12 0      ; r1 = x
        addi  r2 r1 1
        store r2 r12 0      ; x = r1 + 1
        out   r1
        addi  r12 r12 3
        jlt   r12 r14 round
