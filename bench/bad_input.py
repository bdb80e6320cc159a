#!/usr/bin/env python3
"""Files as nobody wrote them: what the program answers of them is what docs/ say.

Run it after `make run`, which builds the program:  python3 bench/bad_input.py [path of the program]

It takes small images, texts, inputs, logs of both versions and schedules, and of each file: every prefix; the file with each
byte set to 0, to 255 and to one more; with each two neighbouring bytes, and some others, exchanged; and with one byte
more. Every command that reads such a file reads each of them, and its exit status, its line, its text and what it saved are
compared with what the model beside this script (model.py), which is written apart from it, says of the same bytes: what is
recorded must be what the model replays by the log, an order that is found must respect the log, that there is none must be so,
and a difference must be one that the model finds under an order that respects the log. Then orders that are shuffled are
checked. It prints how often each command was called, and each answer that is not right.
"""

import os
import random
import struct
import subprocess
import sys
import tempfile
from concurrent.futures import ThreadPoolExecutor

import model

HERE = os.path.dirname(os.path.abspath(__file__))
PROGRAM = sys.argv[1] if len(sys.argv) > 1 else os.path.join(HERE, "..", "crates", "light_cli", "out", "light_cli")
SECONDS = 20


def image(words, threads):
    out = b"LIM1" + bytes([len(threads)]) + struct.pack(">H", len(words))
    out += b"".join(struct.pack(">H", len(code)) for code in threads)
    out += b"".join(struct.pack(">I", word) for word in words)
    for code in threads:
        for name, a, b, c, imm in code:
            out += struct.pack(">BBBBI", model.OPS.index(name), a, b, c, imm)
    return out


def inputs_file(lists):
    return b"LIN1" + bytes([len(lists)]) + b"".join(struct.pack(">I", len(ns)) for ns in lists) + b"".join(struct.pack(">I", n) for ns in lists for n in ns)


ADDS = [("load", 1, 0, 0, 0), ("addi", 1, 1, 0, 1), ("store", 1, 0, 0, 0), ("out", 1, 0, 0, 0)]
TRIES = [("set", 1, 0, 0, 0), ("set", 2, 0, 0, 8), ("cas", 1, 0, 2, 1), ("out", 15, 0, 0, 0)]
SWAPS = [("in", 3, 0, 0, 0), ("xchg", 3, 0, 0, 1), ("out", 3, 0, 0, 0), ("load", 4, 0, 0, 0)]
STRAYS = [("load", 1, 0, 0, 0), ("load", 2, 1, 0, 0), ("load", 1, 0, 0, 1), ("load", 5, 0, 0, 0), ("jne", 5, 1, 0, 2)]
SAMPLES = [
    (image([0], [ADDS, ADDS]), [[], []], [0, 1, 0, 1]),
    (image([5, 0], [TRIES, SWAPS, ADDS]), [[], [7, 9], []], [1, 0, 2, 0, 1, 2]),
    (image([3, 1, 0], [STRAYS, SWAPS, TRIES, ADDS]), [[], [4], [], []], [0, 3, 1, 0, 3, 2, 0, 2, 0]),
]
LIMITS = (40, 60, 12)
BUDGET = "1000"
TEXTS = [
    b".words 2\n.init 1 0x1F\n.thread ; one\nwait: load r1, r0 1\n\tjeq r1 r0 wait\nout r1\n.thread\nset R2 7\nstore r2 r0 1\nhalt\n",
    b".thread\r\n_a: cas r1 r0 r15 4294967295\nend: jmp 0\nJLT r1 r2 end",
]


def changes(data, rng):
    """The file's prefixes, and the file with a byte or two changed."""
    yield data
    yield data + b"\0"
    for n in range(len(data)):
        yield data[:n]
    for at, byte in enumerate(data):
        for new in {0, 255, (byte + 1) % 256} - {byte}:
            yield data[:at] + bytes([new]) + data[at + 1:]
    pairs = [(at, at + 1) for at in range(len(data) - 1)]
    pairs += [tuple(sorted(rng.sample(range(len(data)), 2))) for _ in range(2 * len(data))]
    for a, b in pairs:
        if data[a] != data[b]:
            yield data[:a] + bytes([data[b]]) + data[a + 1:b] + bytes([data[a]]) + data[b + 1:]


class Place:
    """A folder of its own for each call of the program."""

    def __init__(self, folder):
        self.folder = folder

    def call(self, words, files):
        with tempfile.TemporaryDirectory(dir=self.folder) as here:
            for name, data in files.items():
                with open(os.path.join(here, name), "wb") as f:
                    f.write(data)
            try:
                done = subprocess.run([PROGRAM, *words], cwd=here, capture_output=True, timeout=SECONDS)
            except subprocess.TimeoutExpired:
                return "no answer", b"", b"", {}
            left = {name: open(os.path.join(here, name), "rb").read() for name in sorted(os.listdir(here))}
            return done.returncode, done.stdout, done.stderr, left


def refused(status, line):
    return status, b"", ("light: " + line + "\n").encode()


def expect_image(data):
    try:
        model.read_image(data)
        return None
    except model.Fault as f:
        return refused(5, "image refused kind %d thread %d at %d" % (f.kind, *f.places))


def expect_run(data, numbers):
    refusal = expect_image(data)
    if refusal:
        return refusal
    program = model.read_image(data)
    try:
        inputs = model.read_inputs(numbers)
    except model.Fault as f:
        return refused(15, "inputs refused kind %d" % f.kind)
    if len(inputs) != len(program[1]):
        return refused(16, "wrong inputs")
    return 0, model.record(data, LIMITS, [], inputs)[1].encode(), b""


def expect_show(data):
    try:
        return 0, model.show(model.read_log(data)).encode(), b""
    except model.Fault as f:
        return refused(7, "log refused kind %d at %d" % (f.kind, *f.places))


def expect_upgrade(data):
    try:
        return 0, model.write_log(model.read_log(data, 1))
    except model.Fault as f:
        return refused(7, "log refused kind %d at %d" % (f.kind, *f.places))


def expect_check(log_file, data):
    try:
        log = model.read_log(log_file)
    except model.Fault as f:
        return refused(7, "log refused kind %d at %d" % (f.kind, *f.places))
    try:
        order = model.read_schedule(data)
    except model.Fault as f:
        return refused(12, "schedule refused kind %d at %d" % (f.kind, *f.places))
    fault = model.order_fault(log, order)
    if fault:
        return refused(13, "order refused kind %d at %d %d" % fault)
    return 0, b"respects\n", b""


def knows(place, words, files):
    """Whether the program has this command: else it says usage."""
    return place.call(words, files)[0] != 2


def rows(rng):
    """Each row: words, files, and a test of what came of them (None where all is right)."""
    limits = [str(n) for n in LIMITS]
    for data, numbers, order in SAMPLES:
        lists = inputs_file(numbers)
        log, _ = model.record(data, LIMITS, order, numbers)
        saved = model.write_log(log)
        right = model.some_order(log)
        schedule = model.write_schedule(right)
        for changed in changes(data, rng):
            yield ["run", "i", *limits, "n"], {"i": changed, "n": lists}, answers(expect_run(changed, lists))
            yield ["record", "i", "l", *limits, "n"], {"i": changed, "n": lists}, records(changed, lists)
            yield ["list", "i"], {"i": changed}, lists_or(expect_image(changed))
            yield ["replay", "i", "l", "s", BUDGET], {"i": changed, "l": saved}, replays(changed, saved)
        for changed in changes(lists, rng):
            yield ["run", "i", *limits, "n"], {"i": data, "n": changed}, answers(expect_run(data, changed))
            yield ["record", "i", "l", *limits, "n"], {"i": data, "n": changed}, records(data, changed)
        for changed in changes(saved, rng):
            yield ["show", "l"], {"l": changed}, answers(expect_show(changed))
            yield ["check", "l", "s"], {"l": changed, "s": schedule}, answers(expect_check(changed, schedule))
            yield ["solve", "l", "s", BUDGET], {"l": changed}, solves(changed)
            yield ["replay", "i", "l", "s", BUDGET], {"i": data, "l": changed}, replays(data, changed)
        for version in (1, 2):
            old = model.write_log(log, version)
            for changed in changes(old, rng):
                yield ["upgrade", "o", "n"], {"o": changed}, upgrades(expect_upgrade(changed))
        for changed in changes(schedule, rng):
            yield ["check", "l", "s"], {"l": saved, "s": changed}, answers(expect_check(saved, changed))
        for _ in range(300):
            mixed = list(right)
            for _ in range(rng.randint(1, 3)):
                a, b = rng.sample(range(len(mixed)), 2)
                mixed[a], mixed[b] = mixed[b], mixed[a]
            mixed = model.write_schedule(mixed)
            yield ["check", "l", "s"], {"l": saved, "s": mixed}, answers(expect_check(saved, mixed))
    for text in TEXTS:
        for changed in changes(text, rng):
            yield ["asm", "t", "i"], {"t": changed}, assembles


def answers(expected):
    def judge(found):
        status, out, err, _ = found
        return None if (status, out, err) == expected else (expected, (status, out, err))
    return judge


def upgrades(expected):
    def judge(found):
        status, out, err, left = found
        if len(expected) == 2:
            return None if (status, left.get("n")) == expected and not out else (expected, found)
        return None if (status, out, err) == expected and "n" not in left else (expected, found)
    return judge


def lists_or(refusal):
    def judge(found):
        status, out, err, _ = found
        right = (status, err) == (0, b"") and out.startswith(b".words ") if refusal is None else (status, out, err) == refusal
        return None if right else (refusal, found)
    return judge


def assembles(found):
    """An image that is one, or a refusal with a line and a kind."""
    status, out, err, left = found
    if status == 0:
        return None if not out and not err and expect_image(left["i"]) is None else ("an image", found)
    words = err.split()
    told = [b"light:", b"text", b"refused", b"line", b"kind"]
    right = status == 6 and not out and "i" not in left and [words[k] for k in (0, 1, 2, 3, 5)] == told and 1 <= int(words[6]) <= 9
    return None if right else ("a refusal", found)


def records(data, numbers):
    """The log is that of a history, and the model replays it to the text that was printed."""
    def judge(found):
        expected = expect_run(data, numbers)
        status, out, err, left = found
        if expected[0]:
            return None if (status, out, err) == expected and "l" not in left else (expected, found)
        if (status, err) != (0, b""):
            return 0, found
        log = model.read_log(left["l"])
        order = model.some_order(log)
        if log.digest != model.hashlib.sha256(data).digest() or order is None:
            return "no log of this program", found
        difference, text = model.replay(data, log, order)
        return None if difference is None and text.encode() == out else ((difference, text), found)
    return judge


def unsolved(log, found):
    """What is wrong with the answer that there is no order, or that the budget is spent."""
    status, out, err, left = found
    if out or "s" in left or err != {9: b"light: no schedule\n", 10: b"light: budget spent\n"}[status]:
        return "no text and no file", found
    if status == 9:
        return None if model.some_order(log) is None else ("an order respects the log", found)
    return None if model.plain_search(log, int(BUDGET))[1] > int(BUDGET) else ("the budget is enough", found)


def order_in(log, left):
    """The order that was saved; None where it does not respect the log."""
    order = model.read_schedule(left["s"])
    return None if model.order_fault(log, order) else order


def solves(saved):
    def judge(found):
        status, out, err, left = found
        try:
            log = model.read_log(saved)
        except model.Fault as f:
            expected = refused(7, "log refused kind %d at %d" % (f.kind, *f.places))
            return None if (status, out, err) == expected and "s" not in left else (expected, found)
        if status in (9, 10):
            return unsolved(log, found)
        if (status, err) != (0, b""):
            return 0, found
        order = order_in(log, left)
        return None if order is not None and out == b"events %d\n" % len(order) else ("an order", found)
    return judge


def replays(data, saved):
    """Ok has an order that respects the log, under which the replay gives the text; other answers have their cause."""
    def judge(found):
        status, out, err, left = found
        expected = expect_image(data)
        try:
            log = model.read_log(saved)
        except model.Fault as f:
            expected = expected or refused(7, "log refused kind %d at %d" % (f.kind, *f.places))
        if not expected:
            program = model.read_image(data)
            same = log.digest == model.hashlib.sha256(data).digest() and log.words() == len(program[0]) and len(log.threads) == len(program[1])
            expected = None if same else refused(8, "wrong program")
        if expected:
            return None if (status, out, err) == expected and "s" not in left else (expected, found)
        if status in (9, 10):
            return unsolved(log, found)
        if status == 11:
            order = model.some_order(log)
            if order is None or out or "s" in left:
                return "no difference", found
            difference, _ = model.replay(data, log, order)
            if difference and err == b"light: differs thread %d entry %d\n" % difference[:2]:
                return None
            return None if difference and differs_so(data, log, err) else (difference, found)
        if (status, err) != (0, b""):
            return 0, found
        order = order_in(log, left)
        if order is None:
            return "the order does not respect the log", found
        difference, text = model.replay(data, log, order)
        return None if difference is None and text.encode() == out else ((difference, text), found)
    return judge


def differs_so(data, log, err):
    """Whether some order that respects the log has this first difference: of a few thousand that are tried."""
    rng = random.Random(1)
    for _ in range(2000):
        order = model.some_order(log, rng)
        difference, _ = model.replay(data, log, order)
        if err == b"light: differs thread %d entry %d\n" % difference[:2]:
            return True
    return False


def main():
    rng = random.Random(20)
    tried, wrong = {}, 0
    with tempfile.TemporaryDirectory() as folder, ThreadPoolExecutor(os.cpu_count()) as pool:
        place = Place(folder)
        todo, known = [], {}
        for words, files, judge in rows(rng):
            if words[0] not in known:
                known[words[0]] = knows(place, words, files)
            if known[words[0]]:
                todo.append((words, files, judge))
        for (words, files, judge), found in zip(todo, pool.map(lambda row: place.call(row[0], row[1]), todo)):
            tried[words[0]] = tried.get(words[0], 0) + 1
            difference = judge(found)
            if difference:
                wrong += 1
                if wrong <= 20:
                    print("wrong:", words, {name: data.hex() for name, data in files.items()}, difference)
    print("tried: " + ", ".join("%s %d" % row for row in sorted(tried.items())))
    print("wrong answers: %d" % wrong)
    sys.exit(1 if wrong else 0)


if __name__ == "__main__":
    main()
