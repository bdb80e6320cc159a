; CoWW (coherence, two writes): the later of a thread's two writes lasts. The other thread looks on.
; Forbidden: [x]=1
; A round's words: x go0 go1

.words 300                  ; for a hundred rounds, each on words of its own

.thread
        set   r10 1
        set   r11 2
        set   r14 300       ; the words of all rounds
round:  store r10 r12 1     ; the barrier: this thread is here ...
wait:   load  r9 r12 2      ; ... and waits for the other one
        jeq   r9 r0 wait
        store r10 r12 0     ; x = 1
        store r11 r12 0     ; x = 2
        addi  r12 r12 3     ; the next round
        jlt   r12 r14 round

.thread
        set   r10 1
        set   r14 300       ; the words of all rounds
round:  store r10 r12 2
wait:   load  r9 r12 1
        jeq   r9 r0 wait
        load  r1 r12 0      ; r1 = x
        out   r1
        addi  r12 r12 3
        jlt   r12 r14 round
