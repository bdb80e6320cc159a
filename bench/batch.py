#!/usr/bin/env python3
"""How many times as fast `light batch` is with more workers, and what `examples/replay-all` takes over many logs.

Run it after `make run`, which builds the program:  python3 bench/batch.py [COUNT [path of the program]]
It is no part of the gate. It records the arenas of 64 numbers, and 64 histories of a million memory steps (eight threads that copy
words), and replays each 64 logs in one call with WORKERS 1, 2 and 4: the least wall time of five calls, and how many times as fast as
with one worker. The texts must be the same. Then it records the counter of `examples` COUNT times (1,000) and replays all the logs by
`examples/replay-all`: with xargs, and where GNU parallel is installed by it, here and over two hosts of the script's own on this
machine. Say beside the figures what else ran.
"""

import os
import shutil
import subprocess
import sys
import tempfile
import time

HERE = os.path.dirname(os.path.abspath(__file__))
PROGRAM = os.path.join(HERE, "..", "crates", "light_cli", "out", "light_cli")
EXAMPLES = os.path.join(HERE, "..", "examples")
REPLAY_ALL = os.path.join(EXAMPLES, "replay-all")
WORKERS = [1, 2, 4]
JOBS = 64
CALLS = 5

# In the place of ssh: what would be run on a host is run here.
OWN_HOST = """#!/bin/sh
while case $1 in -*) true ;; *) false ;; esac; do shift; done
shift
[ "$1" != -- ] || shift
exec sh -c "$*"
"""

# Loads a word and stores it in another one, for ever: the steps end it.
COPIER = "again:\n load r1 r0 {0}\n store r1 r0 {0}\n jmp again\n"


def call(program, folder, *words):
    done = subprocess.run([program, *words], cwd=folder, capture_output=True)
    if done.returncode:
        sys.exit(f"{' '.join(words)}: {done.stderr.decode().strip()}")
    return done.stdout


def draws(state):
    """The numbers that are drawn from a state on."""
    while True:
        state = (1664525 * state + 1013904223) % 2**32
        yield state // 65536


def move(place, drawn):
    """The code of a move, at its place: under the lock of a room a player who has points gives one to another."""
    room, player, further = next(drawn) % 4, next(drawn) % 5, next(drawn) % 4 + 1
    lock, giver, taker = 6 * room, 6 * room + 1 + player, 6 * room + 1 + (player + further) % 5
    return (
        f"set r1 1000\n jeq r1 r0 {place + 16}\n addi r1 r1 4294967295\n load r3 r0 {lock}\n jne r3 r0 {place + 1}\n"
        f"cas r3 r0 r2 {lock}\n jne r15 r2 {place + 1}\n load r4 r0 {giver}\n out r4\n jeq r4 r0 {place + 15}\n"
        f"addi r4 r4 4294967295\n store r4 r0 {giver}\n load r5 r0 {taker}\n addi r5 r5 1\n store r5 r0 {taker}\n store r0 r0 {lock}\n"
    )


def arena(number):
    """The arena program of a number, as text."""
    drawn = draws(number)
    text = ".words 24\n" + "".join(f".init {word} 20\n" for word in range(24) if word % 6)
    for _ in range(8):
        text += ".thread\nset r2 1\n" + "".join(move(1 + 16 * number, drawn) for number in range(16))
    return text


def assembled(program, folder, name, text):
    with open(os.path.join(folder, "t"), "w") as file:
        file.write(text)
    call(program, folder, "asm", "t", name)


def arenas(program, folder):
    """The lines of 64 arenas, which are recorded."""
    lines = []
    for number in range(JOBS):
        assembled(program, folder, f"arena{number}", arena(number))
        call(program, folder, "record", f"arena{number}", f"arena{number}.log", "1000000", "10000000", "16384")
        lines.append(f"arena{number} arena{number}.log\n")
    return lines


def histories(program, folder):
    """The lines of 64 histories of a million memory steps."""
    text = ".words 8\n" + "".join(".thread\n" + COPIER.format(thread) for thread in range(8))
    assembled(program, folder, "copiers", text)
    lines = []
    for number in range(JOBS):
        call(program, folder, "record", "copiers", f"copiers{number}.log", "125000", "1073741824", "16384")
        lines.append(f"copiers copiers{number}.log\n")
    return lines


def seconds(program, folder, workers):
    """The least wall time of some calls, and what they print."""
    least, text = None, None
    for _ in range(CALLS):
        began = time.perf_counter()
        printed = call(program, folder, "batch", "list", "0", str(workers))
        spent = time.perf_counter() - began
        if text not in (None, printed):
            sys.exit("two calls print different texts")
        least, text = min(spent, least or spent), printed
    return least, text


def compared(program, what, lines_of):
    """Replays 64 logs by each number of workers."""
    with tempfile.TemporaryDirectory() as folder:
        with open(os.path.join(folder, "list"), "w") as file:
            file.writelines(lines_of(program, folder))
        first, one, said = None, None, []
        for workers in WORKERS:
            spent, text = seconds(program, folder, workers)
            first, one = first or text, one or spent
            if text != first:
                sys.exit(f"{what}: {workers} workers print another text")
            said.append(f"{workers}: {spent * 1e3:.0f} ms, {one / spent:.2f} times")
        print(f"{what}: {first.count(b' same ')} of {JOBS} the same; by workers " + "; ".join(said))


def replayed(program, folder, what, *options, path=None, ssh=None):
    """Replays all logs of a folder by the script."""
    variables = {**os.environ, "LIGHT": program, **({"PATH": path} if path else {}), **({"PARALLEL_SSH": ssh} if ssh else {})}
    began = time.perf_counter()
    done = subprocess.run([REPLAY_ALL, *options, folder], capture_output=True, env=variables)
    spent = time.perf_counter() - began
    print(f"replay-all, {what}: {done.stdout.decode().strip()}{done.stderr.decode().strip()}, {spent:.2f} s")


def without_parallel(folder):
    """A path without GNU parallel: links to all other programs of this one."""
    os.mkdir(folder)
    for place in reversed(os.environ["PATH"].split(os.pathsep)):
        for name in os.listdir(place) if os.path.isdir(place) else []:
            if name != "parallel" and not os.path.lexists(os.path.join(folder, name)):
                os.symlink(os.path.join(place, name), os.path.join(folder, name))
    return folder


def main():
    count = int(sys.argv[1]) if len(sys.argv) > 1 else 1_000
    program = os.path.abspath(sys.argv[2] if len(sys.argv) > 2 else PROGRAM)
    compared(program, "64 arenas", arenas)
    compared(program, "64 histories of a million memory steps", histories)
    with tempfile.TemporaryDirectory() as work:
        folder = os.path.join(work, "logs")
        os.mkdir(folder)
        with open(os.path.join(EXAMPLES, "counter.asm")) as file:
            assembled(program, folder, "image", file.read())
        for number in range(count):
            call(program, folder, "record", "image", f"{number}.log", "100000", "1000000", "16384")
        replayed(program, folder, f"{count} logs by xargs", path=without_parallel(os.path.join(work, "bin")))
        if shutil.which("parallel"):
            replayed(program, folder, f"{count} logs by parallel")
            hosts = os.path.join(work, "ssh")
            with open(hosts, "w") as file:
                file.write(OWN_HOST)
            os.chmod(hosts, 0o755)
            replayed(program, folder, f"{count} logs by parallel on two hosts", "-w", "2", "-s", "1/one,1/two", ssh=hosts)


if __name__ == "__main__":
    main()
