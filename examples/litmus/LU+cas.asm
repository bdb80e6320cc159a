; LU+cas: two threads each add 1 to a word, by a compare-exchange that is tried until it writes. None is lost.
; Forbidden: [x]=1
; A round's words: x go0 go1

.words 300                  ; for a hundred rounds, each on words of its own

.thread
        set   r10 1
        set   r14 300       ; the words of all rounds
round:  store r10 r12 1     ; the barrier: this thread is here ...
wait:   load  r9 r12 2      ; ... and waits for the other one
        jeq   r9 r0 wait
        load  r1 r12 0      ; r1 = x
again:  addi  r2 r1 1
        cas   r1 r12 r2 0   ; x = r1 + 1, where x still is r1
        jne   r15 r10 again ; where it is not, r1 is now what it is
        out   r1
        addi  r12 r12 3     ; the next round
        jlt   r12 r14 round

.thread
        set   r10 1
        set   r14 300       ; the words of all rounds
round:  store r10 r12 2
wait:   load  r9 r12 1
        jeq   r9 r0 wait
        load  r1 r12 0      ; r1 = x
again:  addi  r2 r1 1
        cas   r1 r12 r2 0   ; x = r1 + 1, where x still is r1
        jne   r15 r10 again ; where it is not, r1 is now what it is
        out   r1
        addi  r12 r12 3
        jlt   r12 r14 round
