; ABA on a stack: a compare-exchange finds the value that it expects, though the stack has changed twice in between.
; Look for: word 0, the top, ends at node 2, which thread 1 has taken off. The top should be 0.

.words 4                 ; word 0: the top of the stack; words 1 and 2: nodes, each with the node below it; word 3: nothing
.init 0 1
.init 1 2

.thread                  ; takes off node 1, slowly
        load  r1 r0 0    ; the top: node 1
        load  r2 r1 0    ; the node below it: node 2
        set   r7 12
wait:   load  r9 r0 3    ; is busy elsewhere for 12 steps
        addi  r8 r8 1
        jlt   r8 r7 wait
        cas   r1 r0 r2 0 ; the top is node 1 again, and becomes node 2
        out   r15

.thread                  ; takes off node 1 and node 2, and puts node 1 back
        load  r1 r0 0
        load  r2 r1 0
        cas   r1 r0 r2 0
        load  r3 r0 0
        load  r4 r3 0
        cas   r3 r0 r4 0
        load  r5 r0 0
        store r5 r1 0    ; node 1 stands on what the top is now: nothing
        cas   r5 r0 r1 0
        out   r15
