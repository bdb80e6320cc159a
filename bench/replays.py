#!/usr/bin/env python3
"""Whether what `light record` records is replayed to the transcript that it printed.

Run it after `make run`, which builds the program:  python3 bench/replays.py [COUNT [path of the program]]
It is no part of the gate. It records each of the examples COUNT times (1,000), on threads, with limits that end them all, and
replays each log with no dead end allowed: `light replay` must print the transcript of the recording, and `light check` must say
that the order which it saved respects the log. It prints how many different logs each example had. What is not right is kept in
the working folder.
"""

import os
import shutil
import subprocess
import sys
import tempfile
from concurrent.futures import ThreadPoolExecutor

HERE = os.path.dirname(os.path.abspath(__file__))
PROGRAM = os.path.join(HERE, "..", "crates", "light_cli", "out", "light_cli")
EXAMPLES = os.path.join(HERE, "..", "examples")
INPUTS = os.path.join(HERE, "..", "tools", "inputs")
LIMITS = ["1000", "10000", "1000"]


def call(program, folder, *words):
    done = subprocess.run([program, *words], cwd=folder, capture_output=True)
    return done.returncode, done.stdout, done.stderr


def prepared(program, folder, name):
    """Assembles an example, and writes its inputs: the words with which it is recorded."""
    with open(os.path.join(folder, "t"), "wb") as file, open(os.path.join(EXAMPLES, name + ".asm"), "rb") as text:
        file.write(text.read())
    status, _, err = call(program, folder, "asm", "t", "i")
    if status:
        sys.exit(f"{name}: {err.decode().strip()}")
    lists = os.path.join(EXAMPLES, name + ".inputs")
    if not os.path.exists(lists):
        return LIMITS
    with open(lists) as file:
        subprocess.run([INPUTS, os.path.join(folder, "n"), *file.read().split("\n")[:-1]], check=True)
    return [*LIMITS, "n"]


def tried(program, folder, words, number):
    """Records and replays once: the log, and what is not right of it."""
    log, order = f"l{number}", f"s{number}"
    status, text, err = call(program, folder, "record", "i", log, *words)
    if status:
        return None, f"record: {err.decode().strip()}"
    with open(os.path.join(folder, log), "rb") as file:
        data = file.read()
    wrong = ""
    status, again, err = call(program, folder, "replay", "i", log, order, "0")
    if status:
        wrong = f"replay: {err.decode().strip()}"
    elif again != text:
        wrong = "replay: another transcript"
    elif call(program, folder, "check", log, order) != (0, b"respects\n", b""):
        wrong = "check: the order does not respect the log"
    for name in (log, order):
        if os.path.exists(os.path.join(folder, name)):
            os.remove(os.path.join(folder, name))
    return data, wrong


def main():
    count = int(sys.argv[1]) if len(sys.argv) > 1 else 1_000
    program = os.path.abspath(sys.argv[2] if len(sys.argv) > 2 else PROGRAM)
    failed = 0
    for name in sorted(file[:-4] for file in os.listdir(EXAMPLES) if file.endswith(".asm")):
        with tempfile.TemporaryDirectory() as folder, ThreadPoolExecutor(os.cpu_count()) as pool:
            words = prepared(program, folder, name)
            logs = set()
            for data, wrong in pool.map(lambda number: tried(program, folder, words, number), range(count)):
                logs.add(data)
                if wrong:
                    failed += 1
                    print(f"{name}: {wrong}")
                    if data:
                        with open(f"failed{failed}.log", "wb") as file:
                            file.write(data)
                        shutil.copy(os.path.join(folder, "i"), f"failed{failed}.img")
            print(f"{name}: {count} recordings, {len(logs)} different logs")
    print(f"failed: {failed}")
    sys.exit(1 if failed else 0)


if __name__ == "__main__":
    main()
