#!/usr/bin/env python3
"""Whether `light solve` is exact: on small random logs, most of which no history has, its answers are what the model beside this
script (model.py) says of them.

Run it after `make run`, which builds the program:  python3 bench/exact.py [COUNT [SEED [path of the program]]]
It is no part of the gate. Each log is solved with several budgets, among them the number of dead ends of the plain search and
one less. An order that is found must respect the log; that there is none must be so; and that the budget is spent may be said
only where the plain search has more dead ends. It prints how many logs had which answers, and keeps each log that was answered
wrongly in the working folder.
"""

import os
import random
import subprocess
import sys
import tempfile
from concurrent.futures import ThreadPoolExecutor

import model

HERE = os.path.dirname(os.path.abspath(__file__))
PROGRAM = os.path.join(HERE, "..", "crates", "light_cli", "out", "light_cli")
MOST = 4_294_967_295
MOST_DEAD_ENDS = 2_000


def entries(rng, thread, steps, words, writes):
    """Reads of a thread as a well-formed log may hold them, mostly of one step, of a few writes."""
    found = []
    density = rng.random()
    for first in range(1, steps + 1):
        word = rng.randrange(words)
        source = rng.choice(writes) if rng.random() < 0.9 else 0
        last = first if rng.random() < 0.7 else rng.randint(first, steps)
        own = source >> 28 == thread + 1 and source & 0xFFFFFFF >= first
        taken = any(e[0] == word and (e[1] == source or e[3] >= first) for e in found)
        if rng.random() < density and not own and not taken:
            found.append((word, source, first, last))
    return found


def random_log(rng):
    threads, words = rng.randint(2, 8), rng.randint(1, 5)
    longest = rng.choice([3, 5, 9])
    steps = [rng.randint(1, longest) for _ in range(threads)]
    tags = [model.tag(t, n) for t in range(threads) for n in range(1, steps[t] + 1)]
    writes = rng.sample(tags, min(len(tags), rng.randint(2, 12)))
    heads = [dict(end=(0, 0), steps=n, instr=n, entries=entries(rng, t, n, words, writes), taken=[]) for t, n in enumerate(steps)]
    return model.Log(bytes(32), (100, 100, 100), heads, [rng.choice(writes) for _ in range(words)])


def interesting_log(rng):
    """Mostly one at which the plain search meets dead ends: others are seldom kept."""
    while True:
        log = random_log(rng)
        _, dead = model.plain_search(log, MOST_DEAD_ENDS)
        if dead or rng.random() < 0.02:
            return log


def answer(program, log, budget, found, dead):
    """The answer with a budget, and what is wrong with it."""
    with tempfile.TemporaryDirectory() as folder:
        with open(os.path.join(folder, "l"), "wb") as file:
            file.write(model.write_log(log))
        done = subprocess.run([program, "solve", "l", "s", str(budget)], cwd=folder, capture_output=True)
        if done.returncode == 0:
            with open(os.path.join(folder, "s"), "rb") as file:
                fault = model.order_fault(log, model.read_schedule(file.read()))
            return "found", fault and "the order does not respect the log"
    if done.returncode == 9:
        there = found if found is not None else model.some_order(log) is not None
        return "none", there and "there is an order"
    if done.returncode == 10:
        return "spent", found is not None and dead <= budget and f"the plain search has {dead} dead ends"
    return "?", done.stderr.decode().strip()


def tried(program, log):
    """Of a log: whether it has an order, its dead ends, and the answers; and what is wrong with them."""
    found, dead = model.plain_search(log, MOST_DEAD_ENDS)
    answers, wrong = [], ""
    for budget in sorted({0, 1, max(dead - 1, 0), dead, MOST}):
        told, fault = answer(program, log, budget, found, dead)
        answers.append(told)
        wrong = wrong or fault and f"budget {budget}: {told}, but {fault}" or ""
    return (found, min(dead, 10), " ".join(dict.fromkeys(answers))), wrong


def main():
    count = int(sys.argv[1]) if len(sys.argv) > 1 else 1_000
    rng = random.Random(int(sys.argv[2]) if len(sys.argv) > 2 else 1)
    program = os.path.abspath(sys.argv[3] if len(sys.argv) > 3 else PROGRAM)
    logs = [interesting_log(rng) for _ in range(count)]
    told, failed = {}, 0
    with ThreadPoolExecutor(os.cpu_count()) as pool:
        for log, (answers, wrong) in zip(logs, pool.map(lambda log: tried(program, log), logs)):
            told[answers] = told.get(answers, 0) + 1
            if wrong:
                failed += 1
                print(wrong)
                with open(f"failed{failed}.log", "wb") as file:
                    file.write(model.write_log(log))
    for (found, dead, answers), number in sorted(told.items(), key=str):
        there = {True: "an order", False: "no order", None: "given up"}[found]
        print(f"{there}, {dead}{' or more' if dead == 10 else ''} dead ends: {answers}, {number} logs")
    print(f"{count} logs, {failed} answered wrongly")
    sys.exit(1 if failed else 0)


if __name__ == "__main__":
    main()
