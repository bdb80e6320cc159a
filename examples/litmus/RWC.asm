; RWC (from a read to a write): the second thread sees x but not y; who then writes y sees x too.
; Forbidden: 1:r1=1 /\ 1:r2=0 /\ 2:r1=0
; A round's words: x y go0 go1 go2

.words 500                  ; for a hundred rounds, each on words of its own

.thread
        set   r10 1
        set   r14 500       ; the words of all rounds
round:  store r10 r12 2     ; the barrier: this thread is here ...
wait1:  load  r9 r12 3      ; ... and waits for the others
        jeq   r9 r0 wait1
wait2:  load  r9 r12 4
        jeq   r9 r0 wait2
        store r10 r12 0     ; x = 1
        addi  r12 r12 5     ; the next round
        jlt   r12 r14 round

.thread
        set   r10 1
        set   r14 500       ; the words of all rounds
round:  store r10 r12 3
wait0:  load  r9 r12 2
        jeq   r9 r0 wait0
wait2:  load  r9 r12 4
        jeq   r9 r0 wait2
        load  r1 r12 0      ; r1 = x
        load  r2 r12 1      ; r2 = y
        out   r1
        out   r2
        addi  r12 r12 5
        jlt   r12 r14 round

.thread
        set   r10 1
        set   r14 500       ; the words of all rounds
round:  store r10 r12 4
wait0:  load  r9 r12 2
        jeq   r9 r0 wait0
wait1:  load  r9 r12 3
        jeq   r9 r0 wait1
        store r10 r12 1     ; y = 1
        load  r1 r12 0      ; r1 = x
        out   r1
        addi  r12 r12 5
        jlt   r12 r14 round
