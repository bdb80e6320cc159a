; CoRR (coherence, two reads): who has seen a write of a word does not then see an older one.
; Forbidden: 1:r1=1 /\ 1:r2=0
; A round's words: x go0 go1

.words 300                  ; for a hundred rounds, each on words of its own

.thread
        set   r10 1
        set   r14 300       ; the words of all rounds
round:  store r10 r12 1     ; the barrier: this thread is here ...
wait:   load  r9 r12 2      ; ... and waits for the other one
        jeq   r9 r0 wait
        store r10 r12 0     ; x = 1
        addi  r12 r12 3     ; the next round
        jlt   r12 r14 round

.thread
        set   r10 1
        set   r14 300       ; the words of all rounds
round:  store r10 r12 2
wait:   load  r9 r12 1
        jeq   r9 r0 wait
        load  r1 r12 0      ; r1 = x
        load  r2 r12 0      ; r2 = x
        out   r1
        out   r2
        addi  r12 r12 3
        jlt   r12 r14 round
