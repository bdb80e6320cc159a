; ABA: a compare-exchange expects what was read before; meanwhile the word changes twice, and is as it was.
; Where it says that it has not written, it has not. The ABA itself is allowed: 0:r1=0; 0:r2=1; 0:r15=1.
; Forbidden: ~(0:r15=1) /\ [x]=2
; A round's words: x y go0 go1

.words 400                  ; for a hundred rounds, each on words of its own

.thread
        set   r10 1
        set   r14 400       ; the words of all rounds
round:  store r10 r12 2     ; the barrier: this thread is here ...
wait:   load  r9 r12 3      ; ... and waits for the other one
        jeq   r9 r0 wait
        load  r1 r12 0      ; r1 = x
        load  r2 r12 1      ; r2 = y
        mov   r4 r1
        set   r3 2
        cas   r4 r12 r3 0   ; x = 2 and r15 = 1, where x is r1
        out   r1
        out   r2
        out   r15
        addi  r12 r12 4     ; the next round
        jlt   r12 r14 round

.thread
        set   r10 1
        set   r14 400       ; the words of all rounds
round:  store r10 r12 3
wait:   load  r9 r12 2
        jeq   r9 r0 wait
        store r10 r12 0     ; x = 1
        store r10 r12 1     ; y = 1
        store r0 r12 0      ; x = 0
        addi  r12 r12 4
        jlt   r12 r14 round
