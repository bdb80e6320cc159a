; Requests that come from outside: the first thread takes them from its inputs, one after the other, and hands each over
; in word 0, which is 0 while it is free. The second thread serves four requests and puts out their squares.
; Without inputs the first thread ends at once, and the second one waits for ever.
.words 1

.thread                         ; hands requests over, and ends where there are no more
next:   in    r1
wait:   load  r2 r0 0           ; is the word still in use?
        jne   r2 r0 wait
        store r1 r0 0
        jmp   next

.thread                         ; serves four requests
        set   r3 4
look:   load  r1 r0 0
        jeq   r1 r0 look        ; no request yet
        store r0 r0 0           ; the word is free again
        mul   r2 r1 r1
        out   r2
        addi  r3 r3 0xffffffff  ; one request less
        jne   r3 r0 look
