"""A model of the machine, of its files and of replay, written apart from the program.

It is slow and simple, and serves the scripts beside it, which compare the program with it:
every reader gives a value, or the first fault with its kind and place; a history by turns gives a log and a
transcript; an order is judged by the rules, pair by pair; a replay plays one memory by an order.
docs/ says what each file holds.
"""

import hashlib
import struct

MASK = 0xFFFFFFFF
OPS = "halt set mov add sub mul and or xor shl shr addi jmp jeq jne jlt out load store xchg cas in".split()
# which fields of an instruction each operation uses
FIELDS = {
    "halt": "", "set": "ai", "mov": "ab", "add": "abc", "sub": "abc", "mul": "abc", "and": "abc", "or": "abc",
    "xor": "abc", "shl": "abc", "shr": "abc", "addi": "abi", "jmp": "i", "jeq": "abi", "jne": "abi", "jlt": "abi",
    "out": "a", "load": "abi", "store": "abi", "xchg": "abi", "cas": "abci", "in": "a",
}
JUMPS = ("jmp", "jeq", "jne", "jlt")
MEMORY = ("load", "store", "xchg", "cas")
READING = ("load", "xchg", "cas")
ENDS = ["halted", "instr-spent", "bad-address", "steps-spent", "entries-full", "output-full", "input-empty"]


class Fault(Exception):
    """The first fault of a file: its kind, and what the status line says after it."""

    def __init__(self, kind, *places):
        super().__init__(kind, *places)
        self.kind = kind
        self.places = places


def u16(b, at):
    return struct.unpack_from(">H", b, at)[0]


def u32(b, at):
    return struct.unpack_from(">I", b, at)[0]


# ---- programs

def read_image(b):
    """The words and the threads of an image, or its first fault (kind, thread, at)."""
    if len(b) < 7:
        raise Fault(1, 0, 0)
    if b[:4] != b"LIM1":
        raise Fault(2, 0, 0)
    threads, words = b[4], u16(b, 5)
    if not (1 <= threads <= 15 and 1 <= words <= 4096):
        raise Fault(3, 0, 0)
    if len(b) < 7 + 2 * threads:
        raise Fault(1, 0, 0)
    lengths = [u16(b, 7 + 2 * t) for t in range(threads)]
    if any(n > 4096 for n in lengths):
        raise Fault(3, 0, 0)
    start = 7 + 2 * threads
    code = start + 4 * words
    whole = code + 8 * sum(lengths)
    if len(b) < whole:
        raise Fault(1, 0, 0)
    values = [u32(b, start + 4 * w) for w in range(words)]
    programs, at = [], code
    for t, n in enumerate(lengths):
        lines = []
        for place in range(n):
            op, a, bb, c = b[at:at + 4]
            imm = u32(b, at + 4)
            at += 8
            if op > 21:
                raise Fault(4, t, place)
            used = FIELDS[OPS[op]]
            for name, value in zip("abc", (a, bb, c)):
                if name in used and value > 15:
                    raise Fault(5, t, place)
            for name, value in zip("abci", (a, bb, c, imm)):
                if name not in used and value != 0:
                    raise Fault(6, t, place)
            if OPS[op] in JUMPS and imm > n:
                raise Fault(7, t, place)
            lines.append((OPS[op], a, bb, c, imm))
        programs.append(lines)
    if len(b) > whole:
        raise Fault(8, 0, 0)
    return values, programs


def read_inputs(b):
    """The lists of numbers, or the first fault (kind)."""
    if len(b) < 5:
        raise Fault(1)
    if b[:4] != b"LIN1":
        raise Fault(2)
    threads = b[4]
    if not 1 <= threads <= 15:
        raise Fault(3)
    if len(b) < 5 + 4 * threads:
        raise Fault(1)
    counts = [u32(b, 5 + 4 * t) for t in range(threads)]
    if any(n > 65536 for n in counts):
        raise Fault(3)
    whole = 5 + 4 * threads + 4 * sum(counts)
    if len(b) < whole:
        raise Fault(1)
    if len(b) > whole:
        raise Fault(4)
    lists, at = [], 5 + 4 * threads
    for n in counts:
        lists.append([u32(b, at + 4 * k) for k in range(n)])
        at += 4 * n
    return lists


def tag(thread, step):
    return (thread + 1) << 28 | step


def writer(bits):
    """Thread and step of a tag; None for the initial contents."""
    return ((bits >> 28) - 1, bits & 0xFFFFFFF) if bits else None


def source_text(bits):
    return "%d:%d" % writer(bits) if bits else "initial"


class Thread:
    """One thread: what it wants next follows from the cells that its reads found."""

    def __init__(self, number, code, words, limits, numbers):
        self.number, self.code, self.words = number, code, words
        self.most_steps, self.most_instr, self.most_entries = limits
        self.numbers, self.taken = numbers, 0
        self.reg, self.place, self.out = [0] * 16, 0, []
        self.steps = self.instr = 0
        self.entries = []            # [word, source, first, last]
        self.at = {}                 # (word, source) -> place in entries
        self.seen = None             # between the two steps of a cas: the tag that its load saw
        self.end = None              # (code, address)

    def want(self):
        """Runs local instructions up to the next memory step: (kind, word, value), or None at the end."""
        while self.end is None:
            if self.seen is not None:
                op, a, b, c, imm = self.code[self.place]
                if self.steps >= self.most_steps:
                    self.end = (3, 0)
                elif len(self.entries) >= self.most_entries:
                    self.end = (4, 0)
                else:
                    return "cond", (self.reg[b] + imm) & MASK, self.reg[c]
                break
            op, a, b, c, imm = self.code[self.place] if self.place < len(self.code) else ("halt", 0, 0, 0, 0)
            reg = self.reg
            address = (reg[b] + imm) & MASK
            if op == "halt":
                self.end = (0, 0)
            elif self.instr >= self.most_instr:
                self.end = (1, 0)
            elif op in MEMORY and address >= self.words:
                self.end = (2, address)
            elif op in MEMORY and self.steps >= self.most_steps:
                self.end = (3, 0)
            elif op in READING and len(self.entries) >= self.most_entries:
                self.end = (4, 0)
            elif op == "out" and len(self.out) >= 65536:
                self.end = (5, 0)
            elif op == "in" and self.taken >= len(self.numbers):
                self.end = (6, 0)
            elif op in MEMORY:
                kind = {"load": "load", "store": "store", "xchg": "swap", "cas": "load"}[op]
                return kind, address, reg[a]
            else:
                self.local(op, a, b, c, imm)
        return None

    def local(self, op, a, b, c, imm):
        reg, then = self.reg, self.place + 1
        if op == "set":
            reg[a] = imm
        elif op == "mov":
            reg[a] = reg[b]
        elif op == "add":
            reg[a] = (reg[b] + reg[c]) & MASK
        elif op == "sub":
            reg[a] = (reg[b] - reg[c]) & MASK
        elif op == "mul":
            reg[a] = (reg[b] * reg[c]) & MASK
        elif op == "and":
            reg[a] = reg[b] & reg[c]
        elif op == "or":
            reg[a] = reg[b] | reg[c]
        elif op == "xor":
            reg[a] = reg[b] ^ reg[c]
        elif op == "shl":
            reg[a] = (reg[b] << reg[c] % 32) & MASK
        elif op == "shr":
            reg[a] = reg[b] >> reg[c] % 32
        elif op == "addi":
            reg[a] = (reg[b] + imm) & MASK
        elif op == "jmp":
            then = imm
        elif op == "jeq":
            then = imm if reg[a] == reg[b] else then
        elif op == "jne":
            then = imm if reg[a] != reg[b] else then
        elif op == "jlt":
            then = imm if reg[a] < reg[b] else then
        elif op == "out":
            self.out.append(reg[a])
        elif op == "in":
            reg[a] = self.numbers[self.taken]
            self.taken += 1
        self.place = then
        self.instr += 1

    def step(self, memory, keep):
        """Takes the wanted memory step on the memory, a list of [value, source]; False where the thread has ended."""
        want = self.want()
        if want is None:
            return False
        kind, word, value = want
        self.steps += 1
        me = tag(self.number, self.steps)
        op, a, b, c, imm = self.code[self.place]
        old_value, old_source = memory[word]
        if kind != "store":
            self.saw(word, old_source)
        wrote = kind in ("store", "swap") or (kind == "cond" and old_source == self.seen)
        if wrote and keep(me):
            memory[word] = [value, me]
        if kind == "load" and op == "cas":
            if old_value == self.reg[a]:
                self.seen = old_source
                return True
            self.reg[a] = old_value
            self.reg[15] = 0
        elif kind == "cond":
            if wrote:
                self.reg[15] = 1
            else:
                self.reg[a] = old_value
                self.reg[15] = 2
            self.seen = None
        elif kind != "store":
            self.reg[a] = old_value
        self.place += 1
        self.instr += 1
        return True

    def saw(self, word, source):
        place = self.at.get((word, source))
        if place is None:
            self.at[word, source] = len(self.entries)
            self.entries.append([word, source, self.steps, self.steps])
        else:
            self.entries[place][3] = self.steps


def threads_of(program, limits, inputs):
    values, codes = program
    inputs = inputs or [[] for _ in codes]
    return [Thread(t, code, len(values), limits, inputs[t]) for t, code in enumerate(codes)]


class Log:
    def __init__(self, digest, limits, threads, lasts):
        self.digest, self.limits, self.threads, self.lasts = digest, limits, threads, lasts

    def words(self):
        return len(self.lasts)


def log_of(image, limits, threads, memory):
    heads = [dict(end=t.end, steps=t.steps, instr=t.instr, entries=[tuple(e) for e in t.entries], taken=t.numbers[:t.taken]) for t in threads]
    return Log(hashlib.sha256(image).digest(), limits, heads, [source for _, source in memory])


def record(image, limits, order, inputs=None):
    """A history by turns: a step of each thread named, and then rounds. The log and the transcript."""
    program = read_image(image)
    memory = [[value, 0] for value in program[0]]
    threads = threads_of(program, limits, inputs)
    for t in order:
        threads[t].step(memory, lambda me: True)
    while any([t.step(memory, lambda me: True) for t in threads]):
        pass
    return log_of(image, limits, threads, memory), transcript(threads, memory)


def end_text(end):
    return ENDS[end[0]] + (" %d" % end[1] if end[0] == 2 else "")


def transcript(threads, memory):
    lines = []
    for t in threads:
        lines.append("thread %d %s steps %d instr %d" % (t.number, end_text(t.end), t.steps, t.instr))
        lines += ["out %d" % value for value in t.out]
    lines += ["word %d %d" % (w, value) for w, (value, _) in enumerate(memory) if value]
    return "".join(line + "\n" for line in lines)


# ---- logs and schedules

def write_log(log, version=2):
    out = b"LLG%d" % version + struct.pack(">BH", len(log.threads), log.words()) + log.digest + struct.pack(">III", *log.limits)
    for t in log.threads:
        out += struct.pack(">BIIII", t["end"][0], t["end"][1], t["steps"], t["instr"], len(t["entries"]))
        if version == 2:
            out += struct.pack(">I", len(t["taken"]))
    out += b"".join(struct.pack(">I", source) for source in log.lasts)
    out += b"".join(struct.pack(">HIII", *e) for t in log.threads for e in t["entries"])
    if version == 2:
        out += b"".join(struct.pack(">I", n) for t in log.threads for n in t["taken"])
    return out


def is_tag_of(bits, heads):
    if bits == 0:
        return True
    thread, step = writer(bits)
    return 0 <= thread < len(heads) and 1 <= step <= heads[thread]["steps"]


def read_log(b, version=2):
    """The log, or the first fault (kind, at)."""
    size, greatest = (21, 6) if version == 2 else (17, 5)
    if len(b) < 51:
        raise Fault(1, len(b))
    if b[:4] != b"LLG%d" % version:
        raise Fault(2, 0)
    count, words = b[4], u16(b, 5)
    limits = (u32(b, 39), u32(b, 43), u32(b, 47))
    if not (1 <= count <= 15 and 1 <= words <= 4096 and limits[0] < 2**28 and limits[1] <= 2**30 and limits[2] <= 16384):
        raise Fault(3, 4)
    if len(b) < 51 + size * count:
        raise Fault(1, len(b))
    heads = []
    for t in range(count):
        at = 51 + size * t
        code, address, steps, instr, entries = b[at], u32(b, at + 1), u32(b, at + 5), u32(b, at + 9), u32(b, at + 13)
        taken = u32(b, at + 17) if version == 2 else 0
        if steps > limits[0] or instr > limits[1] or entries > limits[2] or taken > 65536:
            raise Fault(3, at)
        if code > greatest or (address != 0 and code != 2) or (code == 2 and address < words):
            raise Fault(4, at)
        heads.append(dict(end=(code, address), steps=steps, instr=instr, entries=entries, taken=taken))
    at = 51 + size * count
    whole = at + 4 * words + 14 * sum(h["entries"] for h in heads) + 4 * sum(h["taken"] for h in heads)
    if len(b) < whole:
        raise Fault(1, len(b))
    lasts = []
    for _ in range(words):
        if not is_tag_of(u32(b, at), heads):
            raise Fault(7, at)
        lasts.append(u32(b, at))
        at += 4
    for h in heads:
        entries = []
        for _ in range(h["entries"]):
            e = struct.unpack_from(">HIII", b, at)
            word, source, first, last = e
            if first == 0 or (entries and first <= entries[-1][2]):
                raise Fault(5, at)
            if first > last or last > h["steps"]:
                raise Fault(6, at)
            if not is_tag_of(source, heads):
                raise Fault(7, at)
            if word >= words:
                raise Fault(8, at)
            if any(d[0] == word and d[1] == source for d in entries):
                raise Fault(9, at)
            if any(d[0] == word and d[3] >= first for d in entries):
                raise Fault(10, at)
            entries.append(e)
            at += 14
        h["entries"] = entries
    for h in heads:
        h["taken"] = [u32(b, at + 4 * k) for k in range(h["taken"])]
        at += 4 * len(h["taken"])
    if len(b) > whole:
        raise Fault(11, whole)
    return Log(bytes(b[7:39]), limits, heads, lasts)


def show(log):
    lines = ["program " + log.digest.hex(), "words %d" % log.words(), "limits %d %d %d" % tuple(log.limits)]
    for number, t in enumerate(log.threads):
        lines.append("thread %d %s steps %d instr %d entries %d inputs %d" % (number, end_text(t["end"]), t["steps"], t["instr"], len(t["entries"]), len(t["taken"])))
        lines += ["entry %d source %s first %d last %d" % (w, source_text(s), f, l) for w, s, f, l in t["entries"]]
        lines += ["in %d" % n for n in t["taken"]]
    lines += ["word %d last %s" % (w, source_text(s)) for w, s in enumerate(log.lasts) if s]
    return "".join(line + "\n" for line in lines)


def write_schedule(order):
    return b"LSC1" + struct.pack(">I", len(order)) + b"".join(struct.pack(">I", e) for e in order)


def read_schedule(b):
    """The events as numbers of tags, or the first fault (kind, at)."""
    if len(b) < 8:
        raise Fault(1, len(b))
    if b[:4] != b"LSC1":
        raise Fault(2, 0)
    count = u32(b, 4)
    if len(b) < 8 + 4 * count:
        raise Fault(1, len(b))
    order = [u32(b, 8 + 4 * k) for k in range(count)]
    for k, e in enumerate(order):
        if e >> 28 == 0 or e & 0xFFFFFFF == 0:
            raise Fault(3, k)
    if len(b) > 8 + 4 * count:
        raise Fault(4, 8 + 4 * count)
    return order


# ---- orders

def entries_of(log):
    """All entries, thread after thread: (thread, word, source, first, last)."""
    return [(t, *e) for t, head in enumerate(log.threads) for e in head["entries"]]


def events_of(log):
    events = {source for source in log.lasts if source}
    for t, word, source, first, last in entries_of(log):
        events |= {tag(t, first), tag(t, last)}
        if source:
            events.add(source)
    return sorted(events)


def order_fault(log, order):
    """The first fault of an order (kind, i, j), or None where it respects the log."""
    events = events_of(log)
    known, place = set(events), {}
    for k, e in enumerate(order):
        if e not in known:
            return 1, k, 0
    for k, e in enumerate(order):
        if e in place:
            return 2, k, 0
        place[e] = k
    for k, e in enumerate(events):
        if e not in place:
            return 3, k, 0
    highest = {}
    for k, e in enumerate(order):
        t = e >> 28
        if e < highest.get(t, 0):
            before = [j for j in range(k) if order[j] >> 28 == t]
            return 4, before[-1], k
        highest[t] = max(e, highest.get(t, 0))
    entries = entries_of(log)
    for i, (t, word, source, first, last) in enumerate(entries):
        if source and not place[source] < place[tag(t, first)]:
            return 5, i, 0
    for i, (t, word, source, first, last) in enumerate(entries):
        for j in range(i + 1, len(entries)):
            u, other, second, _, end = entries[j]
            if other != word or second == source:
                continue
            over = second != 0 and place[tag(t, last)] <= place[second]
            under = source != 0 and place[tag(u, end)] <= place[source]
            if not (over or under):
                return 6, i, j
    for w, final in enumerate(log.lasts):
        for i, (t, word, source, first, last) in enumerate(entries):
            if word == w and source != final and (final == 0 or place[tag(t, last)] > place[final]):
                return 7, w, i
    return None


def some_order(log, rng=None):
    """An order that respects the log, or None where there is none: found by what may come next, front after front. With a
    generator of random numbers it is one or another of them."""
    events, entries = events_of(log), entries_of(log)
    lanes = {}
    for e in events:
        lanes.setdefault(e >> 28, []).append(e)
    lanes = list(lanes.values())
    if any(source and not log.lasts[word] for _, word, source, _, _ in entries):
        return None

    def may_come(e, placed):
        """Whether no rule is broken by an event that comes next, after those that are placed."""
        for t, word, source, first, last in entries:
            last = tag(t, last)
            over = last in placed or last == e
            if tag(t, first) == e and source and source not in placed:
                return False
            if log.lasts[word] == e and source != e and not over:
                return False
            if source != e and (not source or source in placed) and not over and any(d[1] == word and d[2] == e for d in entries):
                return False
        return True

    tried, order = set(), []

    def go(front):
        if len(order) == len(events):
            return True
        if front in tried:
            return False
        tried.add(front)
        placed = set(order)
        for k in rng.sample(range(len(lanes)), len(lanes)) if rng else range(len(lanes)):
            lane = lanes[k]
            if front[k] < len(lane) and may_come(lane[front[k]], placed):
                order.append(lane[front[k]])
                if go(front[:k] + (front[k] + 1,) + front[k + 1:]):
                    return True
                order.pop()
        return False

    return order if go((0,) * len(lanes)) else None


# ---- the plain search

class Problem:
    """Events by tag, base edges, and rival pairs with the edges of their two sides. Edges are pairs of tags."""

    def __init__(self, log):
        self.events = events_of(log)
        entries = entries_of(log)
        read = sorted({(word, source) for _, word, source, _, _ in entries if source})
        self.chains = {(a, b) for a, b in zip(self.events, self.events[1:]) if a >> 28 == b >> 28}
        self.base = set()
        self.impossible = False
        for t, word, source, first, last in entries:
            final, last = log.lasts[word], tag(t, last)
            if source:
                self.base.add((source, tag(t, first)))
            else:
                self.base |= {(last, other) for w, other in read if w == word and other != last}
            if source != final:
                self.impossible = self.impossible or not final
                if final and last != final:
                    self.base.add((last, final))

        def side(word, before, after):
            return {(tag(t, last), after) for t, w, source, _, last in entries if w == word and source == before} - {(after, after)}

        self.pairs = [(side(w, a, b), side(w, b, a)) for w, a in read for v, b in read if v == w and a < b]


def has_cycle(events, edges):
    after, left = {}, {e: 0 for e in events}
    for a, b in edges:
        after.setdefault(a, []).append(b)
        left[b] += 1
    free = [e for e in events if not left[e]]
    done = 0
    while free:
        done += 1
        for b in after.get(free.pop(), []):
            left[b] -= 1
            if not left[b]:
                free.append(b)
    return done < len(events)


def plain_search(log, most=None):
    """Whether it finds a choice, and its dead ends; it gives up (None) once it has met more than `most`."""
    problem = Problem(log)
    start = problem.chains | problem.base
    if problem.impossible or has_cycle(problem.events, start):
        return False, 0
    dead, stack = 0, [(0, start)]
    while stack:
        at, edges = stack.pop()
        if at == len(problem.pairs):
            return True, dead
        open_sides = [edges | side for side in problem.pairs[at] if not has_cycle(problem.events, edges | side)]
        stack += [(at + 1, more) for more in reversed(open_sides)]
        if not open_sides:
            dead += 1
            if most is not None and dead > most:
                return None, dead
    return False, dead


# ---- replay

def end_name(end):
    return "".join(part.capitalize() for part in ENDS[end[0]].split("-")) + ("(%d)" % end[1] if end[0] == 2 else "")


def kept_at(head, place):
    """What a thread's log keeps at a place, as text: an entry, or after the last one the tail."""
    if place < len(head["entries"]):
        word, source, first, last = head["entries"][place]
        return "entry %d %s %d %d" % (word, source_text(source), first, last)
    return "tail %d %d %s %d" % (head["steps"], head["instr"], end_name(head["end"]), len(head["taken"]))


def replay(image, log, order):
    """Plays by the order, leaving out unseen writes: (None, transcript), or (the first difference, None). A difference is
    the thread, the entry, and as texts what is logged and what was found."""
    program = read_image(image)
    memory = [[value, 0] for value in program[0]]
    threads = threads_of(program, log.limits, [t["taken"] for t in log.threads])
    kept = {source for source in log.lasts} | {source for _, _, source, _, _ in entries_of(log)}
    for e in order:
        t, step = writer(e)
        while threads[t].steps < step and threads[t].step(memory, kept.__contains__):
            pass
    for t in threads:
        while t.step(memory, kept.__contains__):
            pass
    found = log_of(image, log.limits, threads, memory)
    for number, (a, b) in enumerate(zip(log.threads, found.threads)):
        for k in range(min(len(a["entries"]), len(b["entries"])) + 1):
            if kept_at(a, k) != kept_at(b, k):
                return (number, k, kept_at(a, k), kept_at(b, k)), None
    for w, (a, b) in enumerate(zip(log.lasts, found.lasts)):
        if a != b:
            return (len(log.threads), w, "last " + source_text(a), "last " + source_text(b)), None
    return None, transcript(threads, memory)
