#!/usr/bin/env python3
"""Whether `light races` is exact: on small random logs, most of which no history has, it prints what the model beside this script
(model.py) says of each rival pair. And how long it takes on large logs, beside `light check`.

Run it after `make run`, which builds the program:  python3 bench/races.py [COUNT [SEED [path of the program]]]
It is no part of the gate. Each log that was answered wrongly is kept in the working folder.
"""

import os
import random
import sys
import tempfile

import exact
import logs
import model
import schedules

MOST = 10_000

# Logs whose times are told, and how they are made.
FAMILIES = schedules.FAMILIES + [
    ("15 threads, one word, 16,000 exchanges each", logs.history, (15, 1, 16_000, 0, 100, 1, 10)),
    ("2 threads, one word, 16,000 exchanges each", logs.history, (2, 1, 16_000, 0, 100, 1, 11)),
]


def event_text(tag):
    return "%d:%d" % model.writer(tag)


def races_text(log):
    """What the program is to print of a log."""
    problem = model.Problem(log)
    base = problem.chains | problem.base
    read = sorted({(word, source) for _, word, source, _, _ in model.entries_of(log) if source})
    named = [(w, a, b) for w, a in read for v, b in read if v == w and a < b]
    counts, lines = [0, 0, 0], []
    for (word, lesser, greater), sides in zip(named, problem.pairs):
        shut = sum(model.has_cycle(problem.events, base | side) for side in sides)
        counts[shut] += 1
        if not shut and len(lines) < MOST:
            lines.append("pair %d %s %s" % (word, event_text(lesser), event_text(greater)))
    head = "pairs %d open %d forced %d stuck %d" % (len(named), *counts)
    return "\n".join([head, *lines])


def main():
    count = int(sys.argv[1]) if len(sys.argv) > 1 else 1_000
    rng = random.Random(int(sys.argv[2]) if len(sys.argv) > 2 else 1)
    program = sys.argv[3] if len(sys.argv) > 3 else schedules.PROGRAM
    with tempfile.TemporaryDirectory() as folder:
        name, order = os.path.join(folder, "x.log"), os.path.join(folder, "x.sched")
        wrong, kinds = 0, {}
        for number in range(count):
            log = exact.random_log(rng)
            data = model.write_log(log)
            with open(name, "wb") as f:
                f.write(data)
            text, status, _, _ = schedules.told(program, "races", name)
            wanted = races_text(log)
            kind = tuple(word != "0" for word in wanted.split("\n")[0].split()[3::2])
            kinds[kind] = kinds.get(kind, 0) + 1
            if status or text != wanted:
                wrong += 1
                with open("races-%d.log" % number, "wb") as f:
                    f.write(data)
        print("%d logs, %d answered wrongly; with open, forced, stuck pairs: %s" % (count, wrong, kinds))
        for what, make, words in FAMILIES:
            with open(name, "wb") as f:
                f.write(make(*words))
            text, _, races, memory = schedules.told(program, "races", name)
            schedules.told(program, "solve", name, order, "0")
            _, _, checked, _ = schedules.told(program, "check", name, order)
            print("%s: races %.2f s, check %.2f s, %d MB: %s" % (what, races, checked, memory // 1024, text.split("\n")[0]))


if __name__ == "__main__":
    main()
