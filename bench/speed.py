#!/usr/bin/env python3
"""How fast `light run` plays: local instructions, memory steps, reads that are logged, and a start.

Run it after `make run`, which builds the program:  python3 bench/speed.py [path of the program]
Each line has the least processor time of some runs. Where valgrind is there, it counts the processor instructions that
one more memory step costs. It is no part of the gate.

    python3 bench/speed.py --beside FOLDER [path of the program]

records, plays and replays the programs of families.py beside the same machine by hand in C. The folder has its two programs:
`light IMAGE LOG STEPS INSTR ENTRIES` records on threads, `bare IMAGE STEPS INSTR ENTRIES --turns` plays by turns, and both
print the transcript. A line has the ratio of processor time an instruction, and both times: the least of seven runs, taken
in turn.
"""

import argparse
import os
import resource
import shutil
import struct
import subprocess
import tempfile

from families import FAMILIES

HERE = os.path.dirname(os.path.abspath(__file__))
PROGRAM = os.path.join(HERE, "..", "crates", "light_cli", "out", "light_cli")
CODES = {
    name: code
    for code, name in enumerate(
        "halt set mov add sub mul and or xor shl shr addi jmp jeq jne jlt out load store xchg cas in".split()
    )
}


def image(words, threads):
    """The image of a program: docs/MACHINE.md says how it is spelled."""
    out = b"LIM1" + bytes([len(threads)]) + struct.pack(">H", len(words))
    out += b"".join(struct.pack(">H", len(code)) for code in threads)
    out += b"".join(struct.pack(">I", word) for word in words)
    for code in threads:
        for name, a, b, c, imm in code:
            out += struct.pack(">BBBBI", CODES[name], a, b, c, imm)
    return out


# counts up for ever, in registers alone
COUNTER = [("addi", 1, 1, 0, 1), ("jeq", 0, 0, 0, 0)]
# computes for ever, with each kind of local instruction but the output
COMPUTER = [
    ("set", 1, 0, 0, 2654435761),
    ("mov", 2, 1, 0, 0),
    ("add", 3, 1, 3, 0),
    ("mul", 3, 3, 1, 0),
    ("shr", 4, 3, 5, 0),
    ("xor", 3, 3, 4, 0),
    ("and", 4, 3, 1, 0),
    ("jlt", 4, 1, 0, 9),
    ("sub", 3, 3, 4, 0),
    ("jne", 4, 2, 0, 11),
    ("or", 4, 3, 2, 0),
    ("addi", 5, 5, 0, 1),
    ("jmp", 0, 0, 0, 0),
]
# reads one word and writes another for ever
COPIER = [("load", 1, 0, 0, 0), ("store", 1, 0, 0, 1), ("jeq", 0, 0, 0, 0)]
# reads one word for ever
READER = [("load", 1, 0, 0, 0), ("jeq", 0, 0, 0, 0)]
# writes a word and reads it for ever, so that each read sees another write
ECHO = [("store", 1, 0, 0, 0), ("load", 1, 0, 0, 0), ("jeq", 0, 0, 0, 0)]
# counts up in a word by compare-exchange for ever
ADDER = [("load", 1, 0, 0, 0), ("addi", 2, 1, 0, 1), ("cas", 1, 0, 2, 0), ("jeq", 0, 0, 0, 0)]
# copies as COPIER does; its code can put out a value, and never does
TALKER = [("load", 1, 0, 0, 0), ("store", 1, 0, 0, 1), ("jeq", 0, 0, 0, 0), ("out", 1, 0, 0, 0)]
# ends at once
HALTER = [("halt", 0, 0, 0, 0)]

MOST_INSTR = 1_073_741_824

CASES = [
    ("60,000,000 local instructions", [0], [COUNTER], (0, 60_000_000, 0), 60_000_000),
    ("60,000,000 local instructions of many kinds", [0], [COMPUTER], (0, 60_000_000, 0), 60_000_000),
    ("1,000,000 loads and stores, one thread", [7, 0], [COPIER], (1_000_000, MOST_INSTR, 2), 1_000_000),
    ("1,000,000 loads and stores, ten threads", [7, 0], [COPIER] * 10, (100_000, MOST_INSTR, 2), 1_000_000),
    ("1,000,000 loads and stores of a code with an out", [7, 0], [TALKER], (1_000_000, MOST_INSTR, 2), 1_000_000),
    ("1,000,000 reads of one word", [0], [READER], (1_000_000, MOST_INSTR, 2), 1_000_000),
    ("16,384 entries of one word, in 32,768 steps", [0], [ECHO], (32_768, MOST_INSTR, 16_384), 32_768),
    ("the same steps with one entry", [0], [READER], (32_768, MOST_INSTR, 2), 32_768),
    ("30,000 steps of compare-exchanges, ten threads", [0], [ADDER] * 10, (3_000, MOST_INSTR, 16_384), 30_000),
    ("one instruction each of 15 threads, largest limits", [0], [HALTER] * 15, (268_435_455, MOST_INSTR, 16_384), 15),
]

RUNS = 5


def processor_time():
    used = resource.getrusage(resource.RUSAGE_CHILDREN)
    return used.ru_utime + used.ru_stime


def measured(command):
    """The least processor time of some runs in seconds, and the first line that is put out."""
    least = None
    for _ in range(RUNS):
        before = processor_time()
        done = subprocess.run(command, capture_output=True, text=True)
        used = processor_time() - before
        least = used if least is None else min(least, used)
    return least, (done.stdout.splitlines() or [done.stderr.strip()])[0]


def instructions(command):
    """The processor instructions of a run, as callgrind counts them."""
    command = ["valgrind", "--tool=callgrind", "--callgrind-out-file=/dev/null", *command]
    done = subprocess.run(command, capture_output=True, text=True)
    line = next(line for line in done.stderr.splitlines() if "refs:" in line)
    return int(line.split(":")[1].replace(",", ""))


def step_cost(program, path, words, code, threads):
    """How many processor instructions one more memory step of a thread costs."""
    with open(path, "wb") as file:
        file.write(image(words, [code] * threads))
    counts = [
        instructions([program, "run", path, str(steps // threads), str(MOST_INSTR), "2"]) for steps in (20_000, 120_000)
    ]
    return (counts[1] - counts[0]) / 100_000


MOST = ["268435455", str(MOST_INSTR), "16384"]
TIMES = 7


def an_instruction(command, less=0.0):
    """The processor time of a run, less some seconds, in nanoseconds an instruction of the program that it plays."""
    before = processor_time()
    done = subprocess.run(command, capture_output=True, text=True, check=True)
    used = processor_time() - before - less
    played = sum(int(line.split()[-1]) for line in done.stdout.splitlines() if line.startswith("thread "))
    return used * 1e9 / played


def say(what, ours, peer):
    print(f"{what}: {ours / peer:.2f} times ({ours:.2f} ns an instruction, C {peer:.2f})", flush=True)


def record_beside(program, folder, name, path):
    """Records a program by both in turn, and replays our log."""
    log, schedule = path + ".log", path + ".order"
    ours, peers, replays = [], [], []
    for _ in range(TIMES):
        peers.append(an_instruction([os.path.join(folder, "light"), path, path + ".c", *MOST]))
        ours.append(an_instruction([program, "record", path, log, *MOST]))
        solve = processor_time()
        subprocess.run([program, "solve", log, schedule, "0"], capture_output=True, check=True)
        solve = processor_time() - solve
        replays.append(an_instruction([program, "replay", path, log, schedule, "0"], solve))
    say(f"{name}, recorded on threads", min(ours), min(peers))
    say(f"{name}, replayed without solving, beside recording it in C", min(replays), min(peers))


def run_beside(program, folder, name, path):
    """Plays a program by turns, by both in turn."""
    ours, peers = [], []
    for _ in range(TIMES):
        peers.append(an_instruction([os.path.join(folder, "bare"), path, *MOST, "--turns"]))
        ours.append(an_instruction([program, "run", path, *MOST]))
    say(f"{name}, played by turns", min(ours), min(peers))


def beside(program, folder):
    """The programs of families.py beside those of the folder."""
    with tempfile.TemporaryDirectory() as place:
        for name, text in FAMILIES:
            path = os.path.join(place, name)
            with open(path + ".asm", "w") as file:
                file.write(text)
            subprocess.run([program, "asm", path + ".asm", path], check=True)
            record_beside(program, folder, name, path)
            run_beside(program, folder, name, path)


def main():
    parser = argparse.ArgumentParser(description=__doc__, formatter_class=argparse.RawDescriptionHelpFormatter)
    parser.add_argument("--beside", metavar="FOLDER", help="the programs by hand in C")
    parser.add_argument("program", nargs="?", default=PROGRAM)
    told = parser.parse_args()
    if told.beside:
        beside(told.program, told.beside)
    else:
        alone(told.program)


def alone(program):
    """What `light run` takes."""
    with tempfile.TemporaryDirectory() as folder:
        path = os.path.join(folder, "bench.img")
        for name, words, threads, limits, count in CASES:
            with open(path, "wb") as file:
                file.write(image(words, threads))
            seconds, first = measured([program, "run", path, *map(str, limits)])
            print(f"{name}: {seconds * 1e3:.1f} ms, {count / max(seconds, 1e-9) / 1e6:.1f} million a second ({first})")
        if shutil.which("valgrind"):
            for name, words, code, threads in [
                ("load or store, one thread", [7, 0], COPIER, 1),
                ("load or store, ten threads", [7, 0], COPIER, 10),
                ("load or store of a code with an out", [7, 0], TALKER, 1),
                ("read of one word", [0], READER, 1),
            ]:
                print(f"{name}: {step_cost(program, path, words, code, threads):.1f} processor instructions a step")
    peak = resource.getrusage(resource.RUSAGE_CHILDREN).ru_maxrss
    print(f"most memory: {peak / 1024:.0f} MiB")


if __name__ == "__main__":
    main()
