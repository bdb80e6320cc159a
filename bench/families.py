"""Programs that spend their time in one way each, as text of `light asm`. speed.py plays them."""

THREADS = 4


def compute(rounds=100, turns=40_000):
    """Long local loops; a load and a store a round."""
    lines = [".words 16"]
    for thread in range(THREADS):
        lines += [".thread", f"set r1 {thread * 7919 + 1}", "set r2 1664525", f"set r9 {rounds}", "set r7 13"]
        lines += ["round: jeq r9 r0 done", f"set r8 {turns}"]
        lines += ["turn: jeq r8 r0 share", "mul r1 r1 r2", "addi r1 r1 1013904223", "shr r3 r1 r7", "xor r4 r4 r3"]
        lines += ["add r5 r5 r4", "addi r8 r8 4294967295", "jmp turn"]
        lines += [f"share: load r6 r0 {thread}", "xor r5 r5 r6", f"store r5 r0 {thread + 1}", "addi r9 r9 4294967295"]
        lines += ["jmp round", "done: out r5"]
    return lines


def read_heavy(words=1024, passes=4000):
    """All threads read one table, pass after pass; in each 64th pass the first one writes a word of it."""
    lines = [f".words {words}"] + [f".init {word} {word * 17 + 3}" for word in range(words)]
    for thread in range(THREADS):
        lines += [".thread", f"set r9 {passes}", f"set r10 {words}", "set r12 63", f"set r13 {words // 2 + 1}"]
        lines += ["pass: jeq r9 r0 done", "set r1 0"]
        lines += ["row: load r2 r1 0", "add r3 r3 r2", "addi r1 r1 1", "jlt r1 r10 row"]
        if thread == 0:
            lines += ["and r4 r9 r12", "jne r4 r0 next", "addi r13 r13 7", "and r5 r13 r12", "store r3 r5 0"]
        lines += ["next: addi r9 r9 4294967295", "jmp pass", "done: out r3"]
    return lines


def read_own(words=256, passes=16_000):
    """Each thread writes a table of its own, and reads it pass after pass."""
    lines = [f".words {words * THREADS}"]
    for thread in range(THREADS):
        first = words * thread
        lines += [".thread", f"set r9 {passes}", f"set r10 {words}"]
        lines += [f"fill: store r1 r1 {first}", "addi r1 r1 1", "jlt r1 r10 fill"]
        lines += ["pass: jeq r9 r0 done", "set r1 0"]
        lines += [f"row: load r2 r1 {first}", "add r3 r3 r2", "addi r1 r1 1", "jlt r1 r10 row"]
        lines += ["addi r9 r9 4294967295", "jmp pass", "done: out r3"]
    return lines


def blind(words=256, stores=1_000_000):
    """Stores to random words, which nobody reads."""
    lines = [f".words {words}"]
    for thread in range(THREADS):
        lines += [".thread", f"set r1 {thread * 7919 + 12345}", "set r2 1664525", "set r7 16", f"set r10 {words - 1}"]
        lines += [f"set r9 {stores}", "next: jeq r9 r0 done", "mul r1 r1 r2", "addi r1 r1 1013904223", "shr r3 r1 r7"]
        lines += ["and r3 r3 r10", "store r1 r3 0", "addi r9 r9 4294967295", "jmp next", "done: out r1"]
    return lines


def cas_counter(adds=4000):
    """All threads count up in one word by compare-exchange."""
    lines = [".words 1"]
    for _ in range(THREADS):
        lines += [".thread", f"set r9 {adds}", "set r12 1", "next: jeq r9 r0 done", "load r1 r0 0"]
        lines += ["try: addi r2 r1 1", "cas r1 r0 r2 0", "jne r15 r12 try", "addi r9 r9 4294967295", "jmp next"]
        lines += ["done: out r1"]
    return lines


def ring(values=5000, slots=8):
    """Threads in pairs: one hands values to the other through a ring of words, each with a flag."""
    lines = [f".words {THREADS * slots}"]
    for pair in range(THREADS // 2):
        base = pair * 2 * slots
        flags = base + slots
        start = [".thread", f"set r9 {values}", "set r12 1", f"set r10 {slots - 1}", "next: jeq r9 r0 done"]
        start += ["and r2 r1 r10", f"wait: load r3 r2 {flags}"]
        end = ["addi r1 r1 1", "addi r9 r9 4294967295", "jmp next"]
        lines += start + ["jne r3 r0 wait", "mul r4 r1 r1", f"store r4 r2 {base}", f"store r12 r2 {flags}"] + end
        lines += ["done: halt"]
        lines += start + ["jeq r3 r0 wait", f"load r4 r2 {base}", "add r5 r5 r4", f"store r0 r2 {flags}"] + end
        lines += ["done: out r5"]
    return lines


FAMILIES = [
    (make.__name__, "\n".join(make()) + "\n") for make in (compute, read_heavy, read_own, blind, cas_counter, ring)
]
