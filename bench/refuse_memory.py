#!/usr/bin/env python3
"""Each request for memory refused in turn: what the program does then is what docs/THEOREMS.md allows.

Run it after `make run`, which builds the program:  python3 bench/refuse_memory.py [path of the program]

It compiles a small library with gcc, under which the program's request number N for memory is refused, alone or with
all later ones, and runs every command so over some small programs and their logs, for every N up to the number of requests
that the command makes. Each run must end with status 70 or do what the command does with ample memory; a file that is saved
must be whole, or as it was; a text that is printed must be a front of the right one, and no run may be ended by a signal.
The right answers of `solve`, `check` and `replay` are looked at by the model beside this script (model.py).
"""

import os
import struct
import subprocess
import sys
import tempfile

import model

HERE = os.path.dirname(os.path.abspath(__file__))
PROGRAM = os.path.abspath(sys.argv[1] if len(sys.argv) > 1 else os.path.join(HERE, "..", "crates", "light_cli", "out", "light_cli"))
EXAMPLES = os.path.join(HERE, "..", "examples")

OWN_WRITE = """
.words 1
.thread
set r1 7
store r1 r0 0
load r2 r0 0
out r2
"""

FIVE_THREADS = """
.words 3
.thread
set r1 1
store r1 r0 2
set r1 2
store r1 r0 2
load r2 r0 0
out r2
.thread
set r1 3
store r1 r0 0
store r1 r0 1
load r2 r0 1
out r2
.thread
set r1 4
store r1 r0 0
load r2 r0 2
out r2
.thread
load r1 r0 0
load r2 r0 2
set r3 5
store r3 r0 1
load r4 r0 1
out r1
out r2
out r4
.thread
set r1 6
store r1 r0 0
store r1 r0 1
store r1 r0 2
"""

# Programs: a name, the text or the example's name, the input numbers of each thread, and the turns by which the log is made.
PROGRAMS = [
    ("own write", OWN_WRITE, [[]], []),
    ("message passing", "message_passing", [[], []], [1, 1, 0, 0, 1, 1]),
    ("five threads", FIVE_THREADS, [[], [], [], [], []], [0, 2, 2, 0, 3, 3, 1, 0, 1, 1, 3, 3, 4, 4, 4]),
    ("requests", "requests", [[3, 5, 7, 11], []], [0, 1, 0, 1, 0, 1]),
]

LIBRARY = r"""
#define _GNU_SOURCE
#include <dlfcn.h>
#include <errno.h>
#include <stdatomic.h>
#include <stdlib.h>
#include <sys/syscall.h>
#include <unistd.h>

static atomic_long requests;
static long first = -1, last = -1;

/* Whether this request is refused. Requests are counted in the program alone, from its `main` on. */
static int refused(void) {
    if (first < 0) return 0;
    long n = atomic_fetch_add(&requests, 1) + 1;
    return n >= first && n <= last;
}
static void *next(const char *name) { return dlsym(RTLD_NEXT, name); }
void *malloc(size_t n) {
    static void *(*real)(size_t);
    if (!real) real = next("malloc");
    if (refused()) { errno = ENOMEM; return 0; }
    return real(n);
}
void *realloc(void *p, size_t n) {
    static void *(*real)(void *, size_t);
    if (!real) real = next("realloc");
    if (refused()) { errno = ENOMEM; return 0; }
    return real(p, n);
}
int posix_memalign(void **p, size_t a, size_t n) {
    static int (*real)(void **, size_t, size_t);
    if (!real) real = next("posix_memalign");
    if (refused()) return ENOMEM;
    return real(p, a, n);
}
void *aligned_alloc(size_t a, size_t n) {
    static void *(*real)(size_t, size_t);
    if (!real) real = next("aligned_alloc");
    if (refused()) { errno = ENOMEM; return 0; }
    return real(a, n);
}
__attribute__((constructor)) static void begin(void) {
    const char *from = getenv("REFUSE_FROM"), *to = getenv("REFUSE_TO");
    first = from ? atol(from) : 1000000000;
    last = to ? atol(to) : 1000000000;
}
__attribute__((destructor)) static void told(void) {
    const char *count = getenv("REFUSE_COUNT");
    if (!count) return;
    char text[32];
    long n = atomic_load(&requests), k = sizeof text;
    do { text[--k] = '0' + n % 10; n /= 10; } while (n);
    (void)!write(atoi(count), text + k, sizeof text - k);
}
/* The program ends so, past all destructors. */
void _exit(int status) {
    told();
    syscall(SYS_exit_group, status);
    __builtin_unreachable();
}
"""

ENOUGH = ["100", "100", "100"]
COMMANDS = [
    (["asm", "t", "i2"], ["i2"]),
    (["list", "i"], []),
    (["run", "i", *ENOUGH], []),
    (["run", "i", *ENOUGH, "n"], []),
    (["record", "i", "l2", *ENOUGH], ["l2"]),
    (["record", "i", "l2", *ENOUGH, "n"], ["l2"]),
    (["record", "i", "l2", *ENOUGH, "2", "3"], ["l2"]),
    (["record", "i", "l2", *ENOUGH, "2", "3", "n"], ["l2"]),
    (["show", "l"], []),
    (["upgrade", "old", "l2"], ["l2"]),
    (["solve", "l", "s2", "1000"], ["s2"]),
    (["check", "l", "s"], []),
    (["replay", "i", "l", "s2", "1000"], ["s2"]),
    (["arena", "7"], []),
]
# commands whose text or file may differ from run to run, since threads run as they please
FREE = {"record"}


def call(folder, words, library=None, first=None, last=None):
    env = dict(os.environ)
    count = None
    if library:
        env["LD_PRELOAD"] = library
        if first:
            env["REFUSE_FROM"], env["REFUSE_TO"] = str(first), str(last)
    read, write = os.pipe()
    env["REFUSE_COUNT"] = str(write)
    done = subprocess.run([PROGRAM, *words], cwd=folder, env=env, capture_output=True, pass_fds=[write], timeout=60)
    os.close(write)
    count = os.read(read, 32)
    os.close(read)
    return done, int(count or 0)


def contents(folder, names):
    return {n: open(os.path.join(folder, n), "rb").read() if os.path.exists(os.path.join(folder, n)) else None for n in names}


def write(folder, name, data):
    with open(os.path.join(folder, name), "wb") as file:
        file.write(data)


def prepare(folder, text, inputs, turns):
    """The files of a program: its text, its image, its inputs, its log in both versions, and an order that respects the log."""
    if "\n" not in text:
        with open(os.path.join(EXAMPLES, text + ".asm")) as file:
            text = file.read()
    write(folder, "t", text.encode())
    call(folder, ["asm", "t", "i"])
    with open(os.path.join(folder, "i"), "rb") as file:
        image = file.read()
    log, transcript = model.record(image, tuple(map(int, ENOUGH)), turns, inputs)
    order = model.some_order(log)
    counts = b"".join(struct.pack(">I", len(numbers)) for numbers in inputs)
    numbers = b"".join(struct.pack(">I", number) for numbers in inputs for number in numbers)
    write(folder, "n", b"LIN1" + bytes([len(inputs)]) + counts + numbers)
    write(folder, "l", model.write_log(log))
    write(folder, "old", model.write_log(log, 1))
    write(folder, "s", model.write_schedule(order))
    return log, transcript


def is_right(words, done, saved, log, transcript):
    """Whether a command with ample memory ended as the model has it."""
    if done.returncode != 0:
        return False
    if words[0] in ("solve", "replay"):
        order = model.read_schedule(saved["s2"])
        text = transcript if words[0] == "replay" else "events %d\n" % len(order)
        return model.order_fault(log, order) is None and done.stdout.decode() == text
    return words[0] != "check" or done.stdout == b"respects\n"


def is_fine(words, done, right, after, good, log, transcript):
    """Whether a command from which memory was kept ended as it may. Where a guess found no memory, another order may be found."""
    free = words[0] in FREE
    if done.returncode == right.returncode:
        if words[0] in ("solve", "replay"):
            return is_right(words, done, after, log, transcript)
        return free or (done.stdout == right.stdout and after == good)
    whole = all(data == b"before" or data == good[name] or free for name, data in after.items())
    return done.returncode == 70 and whole and (free or right.stdout.startswith(done.stdout))


def main():
    tried = wrong = 0
    with tempfile.TemporaryDirectory() as folder:
        source, library = os.path.join(folder, "refuse.c"), os.path.join(folder, "refuse.so")
        write(folder, "refuse.c", LIBRARY.encode())
        subprocess.run(["gcc", "-shared", "-fPIC", "-O1", "-o", library, source, "-ldl"], check=True)
        for name, text, inputs, turns in PROGRAMS:
            log, transcript = prepare(folder, text, inputs, turns)
            for words, saved in COMMANDS:
                # An arena needs no program, and version 1 of the log knows no thread that ends for want of input.
                if words[0] == "arena" and name != PROGRAMS[0][0] or words[0] == "upgrade" and any(t["end"][0] > 5 for t in log.threads):
                    continue
                right, count = call(folder, words, library)
                if right.returncode == 2:
                    print("%s: %s is no command" % (name, words[0]))
                    continue
                good = contents(folder, saved)
                if not is_right(words, right, good, log, transcript):
                    wrong += 1
                    print("wrong:", name, words, right.returncode, right.stdout[-60:], right.stderr[-60:])
                for n in range(1, count + 1):
                    for last in {n, 1000000000}:
                        for s in saved:
                            write(folder, s, b"before")
                        done, _ = call(folder, words, library, n, last)
                        tried += 1
                        if not is_fine(words, done, right, contents(folder, saved), good, log, transcript):
                            wrong += 1
                            print("wrong:", name, words, "request", n, "to", last, done.returncode, done.stdout[-60:], done.stderr[-60:])
                print("%s, %s: %d requests" % (name, " ".join(words), count), flush=True)
    print("tried %d runs, %d wrong" % (tried, wrong))
    sys.exit(1 if wrong else 0)


if __name__ == "__main__":
    main()
