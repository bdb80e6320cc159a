#!/usr/bin/env python3
"""Whether `light solve` finds a schedule for the logs of random histories with no dead end, how fast, and whether
`light check` says that it respects the log.

Run it after `make run`, which builds the program:  python3 bench/schedules.py [COUNT [SEED [path of the program]]]
It is no part of the gate. Every log for which something else is answered is kept in the working folder.
"""

import os
import random
import resource
import subprocess
import sys
import tempfile

import logs

HERE = os.path.dirname(os.path.abspath(__file__))
PROGRAM = os.path.join(HERE, "..", "crates", "light_cli", "out", "light_cli")

# Families whose times are told one by one.
FAMILIES = [
    ("two threads, one word", logs.history, (2, 1, 5_000, 50, 0, 1, 1)),
    ("15 threads, one word", logs.history, (15, 1, 5_000, 50, 0, 1, 2)),
    ("15 threads, 64 words", logs.history, (15, 64, 10_000, 50, 0, 1, 3)),
    ("15 threads, 8 words, long runs", logs.history, (15, 8, 15_000, 50, 0, 30, 4)),
    ("8 threads, 2,000 words, mostly loads", logs.history, (8, 2_000, 15_000, 80, 0, 3, 5)),
    ("15 threads, one word, exchanges alone", logs.history, (15, 1, 1_000, 0, 100, 1, 6)),
    ("15 threads, stores alone but for a few", logs.history, (15, 2, 5_000, 20, 0, 100, 7)),
    ("the largest log, few values at a time", logs.widest, (15, 4_096, 16_384, 64, 8)),
    ("the largest log, many values at a time", logs.widest, (15, 4_096, 16_384, 2_000, 9)),
]


def random_log(rng):
    """2 to 15 threads, 1 to 8 words, 10 to 5,000 steps a thread, runs of one step to a hundred."""
    steps = int(10 * 500 ** rng.random())
    loads = rng.randrange(5, 95)
    exchanges = rng.choice([0, 0, rng.randrange(100 - loads)])
    run = rng.choice([1, 1, 2, 5, 20, 100])
    return logs.history(rng.randint(2, 15), rng.randint(1, 8), steps, loads, exchanges, run, rng.random())


def told(program, *words):
    """What the program says, its exit status, and its processor time and greatest memory so far."""
    before = resource.getrusage(resource.RUSAGE_CHILDREN)
    done = subprocess.run([program, *words], capture_output=True, text=True)
    after = resource.getrusage(resource.RUSAGE_CHILDREN)
    seconds = after.ru_utime + after.ru_stime - before.ru_utime - before.ru_stime
    return (done.stdout + done.stderr).strip(), done.returncode, seconds, after.ru_maxrss


def main():
    count = int(sys.argv[1]) if len(sys.argv) > 1 else 1_000
    rng = random.Random(int(sys.argv[2]) if len(sys.argv) > 2 else 1)
    program = sys.argv[3] if len(sys.argv) > 3 else PROGRAM
    with tempfile.TemporaryDirectory() as folder:
        log, schedule = os.path.join(folder, "x.log"), os.path.join(folder, "x.sched")

        def solved(data):
            """The number of events, the time to solve, the greatest memory; or what else was answered."""
            with open(log, "wb") as file:
                file.write(data)
            answer, status, seconds, memory = told(program, "solve", log, schedule, "0")
            if status == 0:
                check, status, _, _ = told(program, "check", log, schedule)
                if check == "respects":
                    return (int(answer.split()[1]), seconds, memory), ""
                answer = f"check: {check}"
            return None, answer

        for name, make, args in FAMILIES:
            found, answer = solved(make(*args))
            if found:
                events, seconds, memory = found
                print(f"{name}: {events} events in {seconds:.3f} s, {events / seconds:,.0f} a second, {memory // 1024} MB so far")
            else:
                print(f"{name}: {answer}")
        total, time, failed = 0, 0.0, 0
        for number in range(count):
            data = random_log(rng)
            found, answer = solved(data)
            if found:
                total += found[0]
                time += found[1]
            else:
                failed += 1
                with open(f"failed{failed}.log", "wb") as file:
                    file.write(data)
                print(f"log {number}: {answer}")
        print(f"{count} random logs, {failed} failed; {total} events in {time:.1f} s of processor time")


if __name__ == "__main__":
    main()
