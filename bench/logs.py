#!/usr/bin/env python3
"""Logs of random histories, as `light record` saves them (docs/LOG.md), for the commands that find and check schedules.

    python3 bench/logs.py FILE history THREADS WORDS STEPS LOADS EXCHANGES RUN SEED
    python3 bench/logs.py FILE widest THREADS WORDS ENTRIES LIVE SEED

`history`: THREADS threads take STEPS memory steps each, in runs of RUN steps on average, on WORDS words. LOADS per cent of
the steps are loads, EXCHANGES per cent exchanges, the others stores.

`widest`: as many events as a log can have for its entries. Each of ENTRIES entries a thread has a source of its own, and
its first and last step differ; LIVE values are waiting to be read at any time. With 15 4096 16384 2000 it is the largest log.

No image has these logs: their digest is 0.
"""

import random
import struct
import sys

STEPS = 268_435_455
INSTRUCTIONS = 1_073_741_824
ENTRIES = 16_384


def tag(thread, step):
    """The number of the writer that step `step` of a thread is."""
    return (thread + 1) << 28 | step


def spelled(words, threads):
    """A log. `words`: the last tag of each word. `threads`: for each the number of its steps, and its entries as word, source,
    first step and last step, by first step. All threads have halted."""
    out = bytearray(b"LLG2" + bytes([len(threads)]) + struct.pack(">H", len(words)) + bytes(32))
    out += struct.pack(">III", STEPS, INSTRUCTIONS, ENTRIES)
    for steps, entries in threads:
        out += struct.pack(">BIIIII", 0, 0, steps, steps, len(entries), 0)
    out += struct.pack(f">{len(words)}I", *words)
    for _, entries in threads:
        for word, source, first, last in entries:
            out += struct.pack(">HIII", word, source, first, last)
    return bytes(out)


def turns(rng, threads, steps, run):
    """An order of turns: each thread's number as often as it takes a step, in runs of this length on average."""
    left = [steps] * threads
    waiting = list(range(threads)) if steps else []
    while waiting:
        thread = rng.choice(waiting)
        for _ in range(min(left[thread], rng.randint(1, 2 * run - 1))):
            left[thread] -= 1
            yield thread
        if not left[thread]:
            waiting.remove(thread)


def history(threads, words, steps, loads, exchanges, run, seed):
    """The log of a random history."""
    rng = random.Random(seed)
    memory = [0] * words
    taken = [0] * threads
    seen = [{} for _ in range(threads)]
    for thread in turns(rng, threads, steps, run):
        kind = rng.randrange(100)
        word = rng.randrange(words)
        taken[thread] += 1
        if kind < loads + exchanges:
            entry = seen[thread].get((word, memory[word]))
            if entry:
                entry[1] = taken[thread]
            elif len(seen[thread]) < ENTRIES:
                seen[thread][word, memory[word]] = [taken[thread], taken[thread]]
            else:
                taken[thread] -= 1
                continue
        if kind >= loads:
            memory[word] = tag(thread, taken[thread])
    entries = [[(word, source, first, last) for (word, source), (first, last) in each.items()] for each in seen]
    return spelled(memory, list(zip(taken, entries)))


def widest(threads, words, entries, live, seed):
    """The log of a history in which each value is read twice, by one thread, and no step is in two events."""
    rng = random.Random(seed)
    taken = [0] * threads
    left = [entries] * threads
    found = [[] for _ in range(threads)]
    free = list(range(words))
    rng.shuffle(free)
    reading = []

    def step(thread):
        taken[thread] += 1
        return taken[thread]

    while any(left) or reading:
        if any(left) and len(reading) < live and free:
            reader = rng.choice([thread for thread in range(threads) if left[thread]])
            left[reader] -= 1
            writer = rng.randrange(threads)
            reading.append([reader, free.pop(), tag(writer, step(writer)), 0])
            continue
        at = rng.randrange(len(reading))
        reader, word, source, first = reading[at]
        if not first:
            reading[at][3] = step(reader)
            continue
        found[reader].append((word, source, first, step(reader)))
        free.append(word)
        reading[at] = reading[-1]
        reading.pop()
    lasts = []
    for _ in range(words):
        writer = rng.randrange(threads)
        lasts.append(tag(writer, step(writer)))
    return spelled(lasts, [(taken[thread], sorted(found[thread], key=lambda entry: entry[2])) for thread in range(threads)])


def main():
    if len(sys.argv) < 3 or sys.argv[2] not in ("history", "widest"):
        sys.exit(__doc__)
    make = {"history": history, "widest": widest}[sys.argv[2]]
    with open(sys.argv[1], "wb") as file:
        file.write(make(*map(int, sys.argv[3:])))


if __name__ == "__main__":
    main()
