#!/usr/bin/env python3
"""Logs that are made so that a solver or a reader is slow, and what `light show` and `light solve` take for them.

    python3 bench/slow.py [path of the program [SECONDS]]     each row of the table below, given up after SECONDS (60)
    python3 bench/slow.py FILE FAMILY SIZE ..                 one such log into a file

Run it after `make run`, which builds the program. It is no part of the gate. It prints the seconds of processor time and the
greatest memory of each command, and what `solve` answered with budgets 0 and 1000.

  late K              each of 15 threads writes and reads one word K times, all pairs open, beside a small core without an order
  cascade N K         N gadgets each of which is forced by the one before; 8 threads with K sources beside them
  falling K CHAINS N  K words whose last writers stand the wrong way round, behind chains of N sources
  waves K CHAINS N    one event is the source of K words; placing it lowers the clocks of all chains K times
  vain K R F N        one event writes K words for R readers, and is tried first at each choice, in vain; F threads of N sources beside it
  backwards K         each of 15 threads reads K writes of the next one, the last of them first
"""

import os
import resource
import subprocess
import sys
import tempfile

import logs

HERE = os.path.dirname(os.path.abspath(__file__))
PROGRAM = os.path.join(HERE, "..", "crates", "light_cli", "out", "light_cli")
THREADS = 15


class Log:
    """Threads that write and read, each write under a name."""

    def __init__(self):
        self.steps = [0] * THREADS
        self.writes = {}
        self.reads = [[] for _ in range(THREADS)]
        self.last = {}

    def step(self, thread):
        self.steps[thread] += 1
        return self.steps[thread]

    def write(self, thread, name):
        self.writes[name] = logs.tag(thread, self.step(thread))

    def read(self, thread, word, name, more=0):
        """A read of a write, which is read for the last time so many steps later."""
        first = self.step(thread)
        self.reads[thread].append((word, name, first, first + more))

    def own(self, thread, word, name, more=0):
        """A write and a read of it."""
        self.write(thread, name)
        self.read(thread, word, name, more)

    def spelled(self):
        words = 1 + max([word for reads in self.reads for word, *_ in reads] + list(self.last))
        steps = [max([n] + [last for *_, last in reads]) for n, reads in zip(self.steps, self.reads)]
        entries = [[(word, self.writes.get(name, 0), first, last) for word, name, first, last in reads] for reads in self.reads]
        return logs.spelled([self.writes[self.last.get(word, "end")] for word in range(words)], list(zip(steps, entries)))


def core(log, word):
    """Five words from this one on: whichever side of the first pair is taken, there is no order."""
    one, two, three, four = range(word + 1, word + 5)
    log.write(0, "x1")
    log.write(0, "x2")
    log.read(0, word, "a")
    log.write(1, "a")
    log.read(1, three, "y3")
    log.read(1, four, "y4")
    log.write(2, "x3")
    log.write(2, "x4")
    log.read(2, word, "b")
    log.write(3, "b")
    log.read(3, one, "y1")
    log.read(3, two, "y2")
    for thread, (own, word, name) in enumerate([("y1", two, "x2"), ("y2", one, "x1"), ("y3", four, "x4"), ("y4", three, "x3")], 4):
        log.write(thread, own)
        log.read(thread, word, name)


def chain(log, thread, word, length):
    """Sources that are each read once more later."""
    for n in range(length):
        log.own(thread, word, f"f{thread}_{n}", 1)
        log.write(thread, f"g{thread}_{n}")
    log.write(thread, f"e{thread}")


def late(k):
    log = Log()
    for thread in range(THREADS):
        for n in range(k):
            log.own(thread, 0, f"f{thread}_{n}")
    core(log, 1)
    log.write(14, "end")
    return log.spelled()


def cascade(count, k):
    log = Log()
    edge, first, second, ready, free = range(count, count + 5)
    log.write(0, "x1")
    log.write(0, "x2")
    for n in reversed(range(count)):
        log.write(0, f"p{n}")
    log.write(0, "t")
    for n in reversed(range(count)):
        log.read(1, count - 1 - n, f"p{n}")
    for n in reversed(range(count)):
        log.write(2, f"q{n}")
        log.write(2, f"r{n}")
    log.read(3, edge, f"r{count - 1}")
    log.read(3, first, "y1")
    log.read(3, second, "y2")
    for n in reversed(range(count)):
        log.read(3, *((edge, f"r{n - 1}") if n else (ready, "t")))
        log.read(3, count - 1 - n, f"q{n}")
    log.write(4, "y1")
    log.read(4, second, "x2")
    log.write(5, "y2")
    log.read(5, first, "x1")
    for thread in range(6, 14):
        for n in range(k):
            log.own(thread, free, f"f{thread}_{n}")
    log.write(14, "end")
    return log.spelled()


def falling(k, chains, length):
    log = Log()
    for thread in range(3, 3 + chains):
        chain(log, thread, k + thread - 3, length)
    hub = k + chains
    for thread in range(3, 3 + chains):
        log.read(0, hub, f"e{thread}")
    for word in range(k):
        log.read(0, word, None)
        log.last[word] = f"o{word}"
    for word in reversed(range(k)):
        log.write(1, f"o{word}")
    for name in ("c1", "c2", "c3"):
        log.write(2, name)
    log.read(1, hub + 2, "c3")
    log.read(1, hub + 1, "c1")
    log.read(14, hub + 1, "c2")
    log.write(14, "end")
    return log.spelled()


def waves(k, chains, length):
    log = Log()
    log.write(0, "x")
    for thread in range(4, 4 + chains):
        log.read(thread, 0, "x")
        chain(log, thread, k + 1 + thread - 4, length)
    log.read(1, 0, "x")
    for thread in range(4, 4 + chains):
        log.read(1, k + 1 + chains, f"e{thread}")
    for word in range(1, k + 1):
        log.read(1, word, "x")
    for word in reversed(range(1, k + 1)):
        log.write(2, f"o{word}")
    for word in reversed(range(1, k + 1)):
        log.read(3, word, f"o{word}")
    log.write(14, "end")
    return log.spelled()


def vain(k, readers, fillers, length):
    log = Log()
    one, two, free = range(k, k + 3)
    log.write(0, "x")
    for thread in range(1, 1 + readers):
        for word in range(k):
            log.read(thread, word, "x", k - 1 - word)
    log.read(7, free + 1, "o2")
    log.read(7, one, "x")
    log.read(8, free + 2, "o1")
    log.read(8, two, "x")
    for thread in range(9, 9 + fillers):
        for n in range(length):
            log.own(thread, free, f"f{thread}_{n}")
    log.write(13, "o1")
    log.write(14, "o2")
    for word in range(k):
        log.read(6, word, "o1")
    log.read(13, one, "o1")
    log.read(14, two, "o2")
    log.write(14, "end")
    return log.spelled()


def backwards(k):
    log = Log()
    for thread in range(THREADS):
        for n in range(k):
            log.write(thread, f"w{thread}_{n}")
    for thread in range(THREADS):
        for n in reversed(range(k)):
            log.read(thread, 0, f"w{(thread + 1) % THREADS}_{n}")
    log.write(14, "end")
    return log.spelled()


FAMILIES = {make.__name__: make for make in (late, cascade, falling, waves, vain, backwards)}
ROWS = [
    (late, 160), (late, 320), (late, 5_000), (cascade, 400, 4_000), (cascade, 800, 8_000), (falling, 4_000, 10, 13_500),
    (waves, 45, 10, 16_300), (vain, 500, 5, 4, 1_000), (vain, 1_000, 5, 4, 2_000), (backwards, 16_384),
]


def limited(seconds):
    resource.setrlimit(resource.RLIMIT_CPU, (seconds, seconds + 1))


def told(seconds, *words):
    """What is said of a command: its seconds, its greatest memory and what it answered."""
    process = subprocess.Popen(words, stdout=subprocess.PIPE, stderr=subprocess.STDOUT, preexec_fn=lambda: limited(seconds))
    last = b""
    for line in process.stdout:
        last = line
    _, status, used = os.wait4(process.pid, 0)
    answer = last.decode(errors="replace").strip() if os.WIFEXITED(status) else "given up"
    return f"{used.ru_utime + used.ru_stime:.2f} s {used.ru_maxrss // 1024} MB", answer[:24]


def main():
    if len(sys.argv) > 2 and sys.argv[2] in FAMILIES:
        with open(sys.argv[1], "wb") as file:
            file.write(FAMILIES[sys.argv[2]](*map(int, sys.argv[3:])))
        return
    program = sys.argv[1] if len(sys.argv) > 1 else PROGRAM
    seconds = int(sys.argv[2]) if len(sys.argv) > 2 else 60
    with tempfile.TemporaryDirectory() as folder:
        log, schedule = os.path.join(folder, "x.log"), os.path.join(folder, "x.sched")
        for make, *sizes in ROWS:
            data = make(*sizes)
            with open(log, "wb") as file:
                file.write(data)
            shown, _ = told(seconds, program, "show", log)
            cells = [f"show {shown}"]
            for budget in ("0", "1000"):
                solved, answer = told(seconds, program, "solve", log, schedule, budget)
                cells.append(f"solve {budget} {solved}, {answer}")
            print(f"{make.__name__} {' '.join(map(str, sizes))}, {len(data) // 1000} KB: {'; '.join(cells)}", flush=True)


if __name__ == "__main__":
    main()
