; Mailbox: one thread asks for the sum of the numbers up to 3, and waits for the flag; the other one answers, but raises the
; flag too early.
; Look for: where the threads take turns it puts out 6, and on threads mostly too. Sometimes it is 0: see docs/A-BUG.md.

.words 4                 ; words 0 and 1: the question, and whether it is asked; words 2 and 3: the answer, and whether it is given

.thread                  ; answers
        set   r3 1
look:   load  r1 r0 1
        jeq   r1 r0 look
        load  r1 r0 0
        store r3 r0 3    ; the answer is given: this line belongs behind the next four
sum:    add   r2 r2 r1
        sub   r1 r1 r3
        jne   r1 r0 sum
        store r2 r0 2

.thread                  ; asks
        set   r3 1
        set   r1 3
        store r1 r0 0
        store r3 r0 1
wait:   load  r2 r0 3
        jeq   r2 r0 wait
        load  r4 r0 2
        out   r4
