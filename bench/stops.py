#!/usr/bin/env python3
"""Whether `light until` shows a thread as the plain machine has it, and plays no more than it must: after every 7th memory step of
each thread, and after its last one, of histories of the examples and of random programs, beside the model (model.py).

Run it after `make run`, which builds the program:  python3 bench/stops.py [COUNT [SEED [path of the program]]]
It is no part of the gate. Each history is played by the model, which keeps every write, and its log is handed to the program. What
was answered wrongly is kept in the working folder.
"""

import os
import random
import struct
import sys
import tempfile

import model
import replays

EVERY = 7
LIMITS = (400, 1500, 200)
SMALL = (60, 300, 40)


def random_image(rng):
    """A program of a few threads that store, load, exchange and loop on a few words, and never wait for each other."""
    words = rng.randint(1, 3)
    codes = []
    for _ in range(rng.randint(1, 4)):
        length = rng.randint(3, 14)
        code = []
        for place in range(length):
            op = rng.choice("set add addi load store xchg cas load store jne out in jlt".split())
            imm = rng.randrange(3)
            if op in model.MEMORY:
                imm = rng.randrange(words)
            elif op in model.JUMPS:
                imm = rng.randint(0, length)
            used = model.FIELDS[op]
            fields = [rng.choice((1, 2, 3, 15)) if f in used else 0 for f in "abc"]
            if op in model.MEMORY:
                fields[1] = 0                # the address is a constant
            code.append(struct.pack(">BBBBI", model.OPS.index(op), *fields, imm if "i" in used else 0))
        codes.append(code)
    head = b"LIM1" + struct.pack(">BH", len(codes), words)
    head += b"".join(struct.pack(">H", len(code)) for code in codes)
    head += b"".join(struct.pack(">I", rng.randrange(4)) for _ in range(words))
    return head + b"".join(b"".join(code) for code in codes)


def state_of(thread):
    return thread.instr, list(thread.reg)


def history(image, limits, rng, inputs):
    """A history in which the threads' turns fall at random: its log, and for each thread how it stood after each step."""
    program = model.read_image(image)
    memory = [[value, 0] for value in program[0]]
    threads = model.threads_of(program, limits, inputs)
    states = [[(0, [0] * 16)] for _ in threads]
    left = list(threads)
    while left:
        thread = rng.choice(left)
        for _ in range(rng.choice((1, 1, 2, 5))):
            if not thread.step(memory, lambda me: True):
                left.remove(thread)
                break
            states[thread.number].append(state_of(thread))
    return model.log_of(image, limits, threads, memory), states


def cut_of(log, thread, step):
    """The least numbers that reach the step, and with each entry that has begun its source's step."""
    cut = [0] * len(log.threads)
    cut[thread] = step
    while True:
        grown = list(cut)
        for u, head in enumerate(log.threads):
            for _, source, first, _ in head["entries"]:
                if source and first <= cut[u]:
                    writer, number = model.writer(source)
                    grown[writer] = max(grown[writer], number)
        if grown == cut:
            return cut
        cut = grown


def expected(log, states, thread, step):
    instr, registers = states[thread][step]
    lines = ["thread %d step %d instr %d" % (thread, step, instr)]
    lines += ["r%d %d" % (k, value) for k, value in enumerate(registers)]
    lines += ["run %d %d" % (u, number) for u, number in enumerate(cut_of(log, thread, step)) if number]
    return "".join(line + "\n" for line in lines).encode()


def tried(program, folder, log, states):
    """How many steps were shown, and which were not shown right."""
    with open(os.path.join(folder, "l"), "wb") as file:
        file.write(model.write_log(log))
    shown, wrong = 0, []
    for thread, after in enumerate(states):
        last = len(after) - 1
        for step in sorted({*range(0, last + 1, EVERY), last}):
            done = replays.call(program, folder, "until", "i", "l", str(thread), str(step), "0")
            shown += 1
            if done != (0, expected(log, states, thread, step), b""):
                wrong.append((thread, step, done))
        beyond = replays.call(program, folder, "until", "i", "l", str(thread), str(last + 1), "0")
        if beyond != (18, b"", b"light: no such step\n"):
            wrong.append((thread, last + 1, beyond))
    return shown, wrong


def examples(program, folder):
    """The image of each example, and its inputs."""
    for name in sorted(file[:-4] for file in os.listdir(replays.EXAMPLES) if file.endswith(".asm")):
        words = replays.prepared(program, folder, name)
        with open(os.path.join(folder, "i"), "rb") as file:
            image = file.read()
        inputs = None
        if len(words) > len(replays.LIMITS):
            with open(os.path.join(folder, "n"), "rb") as file:
                inputs = model.read_inputs(file.read())
        yield name, image, inputs


def main():
    count = int(sys.argv[1]) if len(sys.argv) > 1 else 1_000
    rng = random.Random(int(sys.argv[2]) if len(sys.argv) > 2 else 1)
    program = os.path.abspath(sys.argv[3] if len(sys.argv) > 3 else replays.PROGRAM)
    failed = 0

    def told(name, folder, image, log, states):
        nonlocal failed
        shown, wrong = tried(program, folder, log, states)
        if wrong:
            failed += 1
            print("%s: %s" % (name, wrong[0]))
            with open("failed%d.img" % failed, "wb") as file:
                file.write(image)
            with open("failed%d.log" % failed, "wb") as file:
                file.write(model.write_log(log))
        return shown

    with tempfile.TemporaryDirectory() as folder:
        for name, image, inputs in examples(program, folder):
            log, states = history(image, LIMITS, rng, inputs)
            print("%s: %d steps of %d threads shown" % (name, told(name, folder, image, log, states), len(states)))
        steps = 0
        for number in range(count):
            image = random_image(rng)
            inputs = [[rng.randrange(4) for _ in range(rng.randrange(6))] for _ in model.read_image(image)[1]]
            with open(os.path.join(folder, "i"), "wb") as file:
                file.write(image)
            log, states = history(image, SMALL, rng, inputs)
            steps += told("random program %d" % number, folder, image, log, states)
        print("%d random programs: %d steps shown" % (count, steps))
    print("wrong: %d" % failed)
    sys.exit(1 if failed else 0)


if __name__ == "__main__":
    main()
