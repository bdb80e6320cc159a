#!/usr/bin/env python3
"""Whether `light audit` tells which logs are those of runs: each log that is recorded on threads must be legal with no dead end allowed,
and of small changed logs it must say what the model beside this script (model.py) says.

Run it after `make run`, which builds the program:  python3 bench/audits.py [RECORDED [CHANGED [SEED [path of the program]]]]
It is no part of the gate. RECORDED logs (10,000) are of the examples and of random programs, each recorded on threads. For CHANGED
logs (2,000) the model plays every history of a small random program, so it knows every log that the program can have; a log is
then made of the threads and last tags of different ones, and is legal exactly where it is one of them. What was answered wrongly is
kept in the working folder.
"""

import copy
import os
import random
import sys
import tempfile
from concurrent.futures import ThreadPoolExecutor

import model
import replays
import stops

MOST = "4294967295"
MOST_HISTORIES = 20_000


def steps_of(data):
    return sum(head["steps"] for head in model.read_log(data).threads)


# ---- logs that are recorded

def recorded(program, folder, image, words, number):
    """Records the image once on threads, and audits the log: the log, and what is not right."""
    log = "l%d" % number
    status, _, err = replays.call(program, folder, "record", image, log, *words)
    if status:
        return None, "record: " + err.decode().strip()
    with open(os.path.join(folder, log), "rb") as file:
        data = file.read()
    done = replays.call(program, folder, "audit", image, log, "0")
    os.remove(os.path.join(folder, log))
    return data, done != (0, b"legal %d\n" % steps_of(data), b"") and "audit: %r" % (done,)


def record_all(program, count, rng, pool, keep):
    names = sorted(file[:-4] for file in os.listdir(replays.EXAMPLES) if file.endswith(".asm"))
    of_examples = count // 2 // len(names)
    for name in names:
        with tempfile.TemporaryDirectory() as folder:
            words = replays.prepared(program, folder, name)
            logs = set()
            for data, wrong in pool.map(lambda number: recorded(program, folder, "i", words, number), range(of_examples)):
                logs.add(data)
                keep(wrong and name + ": " + wrong, [data])
            print("%s: %d recorded, %d different logs" % (name, of_examples, len(logs)))
    with tempfile.TemporaryDirectory() as folder:
        left = count - of_examples * len(names)
        for number in range(left):
            with open(os.path.join(folder, "i%d" % number), "wb") as file:
                file.write(stops.random_image(rng))
        limits = [str(limit) for limit in stops.LIMITS]
        for data, wrong in pool.map(lambda number: recorded(program, folder, "i%d" % number, limits, number), range(left)):
            keep(wrong and "random program: " + wrong, [data])
        print("%d random programs recorded" % left)


# ---- logs that are changed

def clone(thread):
    new = copy.copy(thread)
    new.reg, new.out, new.at = list(thread.reg), list(thread.out), dict(thread.at)
    new.entries = [list(entry) for entry in thread.entries]
    return new


def logs_of_histories(image, limits):
    """The logs of all histories of the program, or None where there are too many."""
    program = model.read_image(image)
    logs = {}
    count = 0
    waiting = [(model.threads_of(program, limits, None), [[value, 0] for value in program[0]])]
    while waiting:
        threads, memory = waiting.pop()
        moved = False
        for k, thread in enumerate(threads):
            new, cells = clone(thread), [list(cell) for cell in memory]
            if new.step(cells, lambda me: True):
                moved = True
                waiting.append((threads[:k] + [new] + threads[k + 1:], cells))
        if not moved:
            for thread in threads:
                thread.want()
            log = model.log_of(image, limits, threads, memory)
            logs[model.write_log(log)] = log
            count += 1
            if count > MOST_HISTORIES:
                return None
    return logs


def changed_log(rng, logs):
    """A log of the threads and last tags of some of these; None where it is not well formed."""
    some = list(logs.values())
    first = rng.choice(some)
    threads = [rng.choice(some).threads[t] if rng.random() < 0.5 else head for t, head in enumerate(first.threads)]
    lasts = [rng.choice(some).lasts[word] if rng.random() < 0.3 else last for word, last in enumerate(first.lasts)]
    data = model.write_log(model.Log(first.digest, first.limits, threads, lasts))
    try:
        model.read_log(data)
    except model.Fault:
        return None
    return data


def changed(program, folder, number, image, data):
    for name, content in ("i", image), ("l", data):
        with open(os.path.join(folder, name + str(number)), "wb") as file:
            file.write(content)
    return replays.call(program, folder, "audit", "i%d" % number, "l%d" % number, MOST)


def change_all(program, count, rng, pool, keep):
    jobs = []
    while len(jobs) < count:
        image = stops.random_image(rng)
        logs = logs_of_histories(image, (rng.choice((2, 3)), 30, 40)) if len(model.read_image(image)[1]) in (2, 3) else None
        if logs is None or len(logs) < 3:
            continue
        for _ in range(10):
            data = changed_log(rng, logs)
            if data is not None:
                jobs.append((image, data, data in logs))
    with tempfile.TemporaryDirectory() as folder:
        done = pool.map(lambda job: changed(program, folder, job[0], *job[1][:2]), enumerate(jobs))
        for (image, data, legal), (status, text, err) in zip(jobs, done):
            right = (status, text) == (0, b"legal %d\n" % steps_of(data)) if legal else (status, err) == (17, b"light: not legal\n")
            keep(not right and "changed log: %r where it is %slegal" % ((status, text, err), "" if legal else "not "), [image, data])
    print("%d changed logs: %d legal, %d not" % (len(jobs), sum(job[2] for job in jobs), sum(not job[2] for job in jobs)))


def main():
    count = int(sys.argv[1]) if len(sys.argv) > 1 else 10_000
    changes = int(sys.argv[2]) if len(sys.argv) > 2 else 2_000
    rng = random.Random(int(sys.argv[3]) if len(sys.argv) > 3 else 1)
    program = os.path.abspath(sys.argv[4] if len(sys.argv) > 4 else replays.PROGRAM)
    failed = 0

    def keep(wrong, files):
        nonlocal failed
        if wrong:
            failed += 1
            print(wrong)
            for place, content in enumerate(files):
                with open("failed%d.%d" % (failed, place), "wb") as file:
                    file.write(content or b"")

    with ThreadPoolExecutor(os.cpu_count()) as pool:
        record_all(program, count, rng, pool, keep)
        change_all(program, changes, rng, pool, keep)
    print("wrong: %d" % failed)
    sys.exit(1 if failed else 0)


if __name__ == "__main__":
    main()
