#!/usr/bin/env python3
"""Saves that fail, or are killed: what was there stands, or the new file does, whole (docs/ANSWERS.md).

Run it after `make run`, which builds the program:  python3 bench/saves.py [path of the program [kills]]

`light upgrade` saves a log of 3.4 MB over another file: with room for it and without, into a device, a pipe and through a
link, and killed at a random moment, 200 times. Where it is run by root, it also saves as nobody where nobody may not write.
"""

import os
import random
import resource
import signal
import stat
import subprocess
import sys
import tempfile
import threading
import time

import logs

HERE = os.path.dirname(os.path.abspath(__file__))
PROGRAM = os.path.abspath(sys.argv[1] if len(sys.argv) > 1 else os.path.join(HERE, "..", "crates", "light_cli", "out", "light_cli"))
KILLS = int(sys.argv[2]) if len(sys.argv) > 2 else 200
NOBODY = 65534
OLD = b"what was there"


def first_version(log):
    """The same log in version 1: its headers of threads have no count of input numbers."""
    threads = log[4]
    headers = [log[51 + 21 * thread:51 + 21 * thread + 17] for thread in range(threads)]
    return b"LLG1" + log[4:51] + b"".join(headers) + log[51 + 21 * threads:]


def become_nobody():
    os.setgroups([])
    os.setgid(NOBODY)
    os.setuid(NOBODY)


def take_no_room():
    signal.signal(signal.SIGXFSZ, signal.SIG_IGN)
    resource.setrlimit(resource.RLIMIT_FSIZE, (1_000_000, 1_000_000))


def saving(name, before=None):
    return subprocess.Popen([PROGRAM, "upgrade", "old.log", name], preexec_fn=before, stderr=subprocess.PIPE)


def save(name, before=None):
    """The exit status of a save under that name."""
    process = saving(name, before)
    process.communicate()
    return process.returncode


def content(name):
    with open(name, "rb") as file:
        return file.read()


def put(name, mode=0o644):
    with open(name, "wb") as file:
        file.write(OLD)
    os.chmod(name, mode)


def see(what, holds):
    print(("ok     " if holds else "WRONG  ") + what)
    if not holds:
        sys.exit(1)


def beside():
    return [name for name in os.listdir(".") if name.startswith("light-")]


def as_anybody(new):
    put("saved", 0o640)
    see("a file is replaced, with its permissions", save("saved") == 0 and content("saved") == new and stat.S_IMODE(os.stat("saved").st_mode) == 0o640)
    put("saved")
    see("a full disk leaves what was there", save("saved", take_no_room) == 3 and content("saved") == OLD and beside() == [])
    see("and a free name free", save("free", take_no_room) == 3 and not os.path.exists("free") and beside() == [])
    see("a full device is told", save("/dev/full") == 3)
    put("target")
    os.symlink("target", "link")
    see("through a link its file is written", save("link") == 0 and os.path.islink("link") and content("target") == new)
    os.mkfifo("pipe")
    read = []
    reader = threading.Thread(target=lambda: read.append(content("pipe")))
    reader.start()
    see("a pipe takes all", save("pipe") == 0)
    reader.join()
    see("and hands it on", read == [new] and stat.S_ISFIFO(os.stat("pipe").st_mode))
    see("nothing stands beside", beside() == [])


def as_nobody(new):
    put("saved", 0o666)
    at = os.stat("saved").st_ino
    see("in a folder that is closed a file is written into", save("saved", become_nobody) == 0 and content("saved") == new and os.stat("saved").st_ino == at)
    see("and no new one made", save("free", become_nobody) == 3 and not os.path.exists("free"))
    os.chmod(".", 0o777)
    put("saved", 0o444)
    os.chown("saved", NOBODY, NOBODY)
    see("a file that may not be written is left", save("saved", become_nobody) == 3 and content("saved") == OLD)
    put("other", 0o666)
    at = os.stat("other").st_ino
    see("another's file is written into", save("other", become_nobody) == 0 and content("other") == new and os.stat("other").st_ino == at and os.stat("other").st_uid == 0)
    os.chmod("saved", 0o600)
    see("root leaves it to its owner", save("saved") == 0 and content("saved") == new and (os.stat("saved").st_uid, os.stat("saved").st_gid) == (NOBODY, NOBODY))
    os.chmod(".", 0o755)
    see("nothing stands beside", beside() == [])


def killed(new):
    start = time.monotonic()
    save("saved")
    whole = time.monotonic() - start
    rng = random.Random(1)
    replaced = 0
    for _ in range(KILLS):
        put("saved")
        process = saving("saved")
        time.sleep(rng.uniform(0, 1.3 * whole))
        process.kill()
        process.communicate()
        found = content("saved")
        if found not in (OLD, new):
            see("a file is whole after a kill", False)
        replaced += found == new
    see(f"killed: {replaced} of {KILLS} saves left the new file, the others the old one; {len(beside())} a file beside", True)


def main():
    with tempfile.TemporaryDirectory() as folder:
        os.chdir(folder)
        os.chmod(folder, 0o755)
        log = logs.widest(15, 4096, 16384, 2000, 1)
        with open("old.log", "wb") as file:
            file.write(first_version(log))
        see("a free name gets the file", save("saved") == 0)
        new = content("saved")
        see("which is the log in today's version", PROGRAM.endswith(".sh") or new == log)
        as_anybody(new)
        if os.geteuid() == 0:
            as_nobody(new)
        killed(new)


if __name__ == "__main__":
    main()
