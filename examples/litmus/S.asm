; S: one thread writes x and then y; the other reads y and then writes x. Who has seen y writes x last.
; Forbidden: 1:r1=1 /\ [x]=2
; A round's words: x y go0 go1

.words 400                  ; for a hundred rounds, each on words of its own

.thread
        set   r10 1
        set   r11 2
        set   r14 400       ; the words of all rounds
round:  store r10 r12 2     ; the barrier: this thread is here ...
wait:   load  r9 r12 3      ; ... and waits for the other one
        jeq   r9 r0 wait
        store r11 r12 0     ; x = 2
        store r10 r12 1     ; y = 1
        addi  r12 r12 4     ; the next round
        jlt   r12 r14 round

.thread
        set   r10 1
        set   r14 400       ; the words of all rounds
round:  store r10 r12 3
wait:   load  r9 r12 2
        jeq   r9 r0 wait
        load  r1 r12 1      ; r1 = y
        store r10 r12 0     ; x = 1
        out   r1
        addi  r12 r12 4
        jlt   r12 r14 round
