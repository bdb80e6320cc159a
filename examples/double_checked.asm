; Double-checked initialisation, broken: the object is told to be ready before it is made.
; Look for: thread 1 comes late, finds the object ready without taking the lock, and puts out 0 for its second field.

.words 5                 ; word 0: the lock; word 1: ready; words 2 and 3: the object's fields; word 4: nothing

.thread                  ; takes the lock and makes the object
        set   r1 1
        load  r2 r0 1    ; the first check, without the lock
        jeq   r2 r1 use
lock:   set   r3 0
        cas   r3 r0 r1 0
        jne   r15 r1 lock
        load  r2 r0 1    ; the second check, under the lock
        jeq   r2 r1 done
        store r1 r0 1    ; ready is told here: this line belongs behind the next three
        set   r4 42
        store r4 r0 2
        store r4 r0 3
done:   store r0 r0 0
use:    load  r5 r0 3
        out   r5

.thread                  ; is busy elsewhere, and then wants the object
        set   r1 1
        load  r6 r0 4
        load  r6 r0 4
        load  r6 r0 4
        load  r6 r0 4
        load  r2 r0 1
        jeq   r2 r1 use
        halt             ; it would take the lock here
use:    load  r5 r0 3
        out   r5
