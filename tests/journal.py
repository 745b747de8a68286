#!/usr/bin/env python3
"""Prints journals of renders, lets the program check them, and compares what it says with a second reading of the rules.

    tests/journal.py [--runs N] [--walks N] [--seed S] [--keep FOLDER]

The second reading is tests/machine.py; tests/graphs.py makes scripts whose graphs are known, and tests/damage.py damages journals.
N of these scripts are rendered by 1 to 16 workers: `info` must show the graph, and the journal must be a run by the program and by
the second reading. Then it is damaged in one place, in many ways, and replayed with caches of other sizes and for another script:
both must name the same line. Renders print few of the journals that there are, so N walks go through the machine at random, with
failures, claims that are given up, and windows that stay open; after some of their lines comes one more, which may or may not be
lawful. Tables have texts at the limits and say which line is wrong. Then there are files that are no journals, words that are
refused, and outputs that fail; and journals must show as many workers at work at once as were asked for.

The program is built first, unless the environment names one as AVSSERVE. Each run has its time. With --keep the folder gets
each script and text on which program and second reading differ.
"""

import argparse
import collections
import concurrent.futures
import os
import random
import shutil
import subprocess
import sys
import tempfile

from damage import DAMAGE, text_of
from graphs import Script, stream
from machine import LARGE, MOST_FRAMES, SMALL, Graph, Node, Reading, answer, first_wrong, read, spelled
from workers import PROGRAM, ROOT

SECONDS = 120
MOST_BYTES = 67_108_864
CACHES = [1, 1, 2, 3, 4, 5, 8, 16, 64, 64, 255, 256]
USAGE = (
    "usage: avsserve render SCRIPT [--cache C] [--threads T] [--report | --journal] [--plain] | info SCRIPT | "
    "selftest NUMBER | session SCRIPT LIST [--cache C] | replay SCRIPT JOURNAL [--cache C]\n"
)
M4 = b"YUV4MPEG2 W1 H1 F25:1 Ip A1:1 Cmono\n" + b"".join(b"FRAME\n" + bytes([n]) for n in range(4))


class Runs:
    """A folder for the runs of the program, and how many comparisons there were."""

    def __init__(self, folder, pool, keep=None):
        self.folder, self.pool, self.keep, self.pending = folder, pool, keep, []
        self.count, self.wrong, self.answers = 0, 0, collections.Counter()

    def put(self, name, data):
        """Writes a file, after the replays that go on, since these may read it."""
        self.settle()
        self.write(name, data if isinstance(data, bytes) else data.encode())

    def write(self, name, data):
        with open(os.path.join(self.folder, name), "wb") as file:
            file.write(data)

    def run(self, words, **how):
        """The status, and what comes on standard output and standard error."""
        how = {"stdin": subprocess.DEVNULL, "stdout": subprocess.PIPE, "stderr": subprocess.PIPE, **how}
        try:
            done = subprocess.run([PROGRAM, *words], cwd=self.folder, timeout=SECONDS, check=False, **how)
        except subprocess.TimeoutExpired as late:
            return "no end", late.stdout, b""
        return done.returncode, done.stdout, done.stderr

    def judge(self, what, came, wanted):
        """Whether it came as it is wanted."""
        self.count += 1
        if came != wanted:
            self.wrong += 1
            print(f"journal: {what}: {short(came)}, wanted {short(wanted)}")
        return came == wanted

    def replay(self, what, graph, root, text, cache, line="unread"):
        """A replay of the text says what the second reading says, or that this is the first wrong line."""
        name = f"j{len(self.pending)}.txt"
        self.write(name, text)
        came = self.pool.submit(self.run, ["replay", "s.avs", name, "--cache", str(cache)])
        line = first_wrong(graph, root, cache, text) if line == "unread" else line
        self.pending.append((f"{what}, cache {cache}", came, text, line))

    def settle(self):
        """Compares what the replays said that went on."""
        pending, self.pending = self.pending, []
        for what, came, text, line in pending:
            self.answers["runs" if line is None else "others"] += 1
            if not self.judge(what, came.result(), (0, answer(text, line), b"")):
                self.tell(text, line)

    def tell(self, text, line):
        """Shows the script, and the text up to the line that was wanted, and keeps both."""
        with open(os.path.join(self.folder, "s.avs"), encoding="ascii") as file:
            print(file.read())
        if line is not None:
            print(b"\n".join(text.split(b"\n")[max(line - 6, 0) : line]).decode(errors="replace"))
        if self.keep:
            kept = os.path.join(self.keep, str(self.wrong))
            shutil.copytree(self.folder, kept, ignore=shutil.ignore_patterns("*.txt"))
            with open(os.path.join(kept, "j.txt"), "wb") as file:
                file.write(text)


def short(came):
    """What a run gave, or one thing of it, with as much of each text as can be read."""
    parts = came if isinstance(came, tuple) else (came,)
    return ", ".join(str(it if not isinstance(it, bytes) or len(it) < 400 else it[:200] + b".." + it[-100:]) for it in parts)


# ---- journals of renders


def follows(text, frames):
    """Whether the windows of a journal are all frames, one after the other."""
    heads = [read(line) for line in text.split(b"\n") if line.startswith(b"window")]
    return [n for _, first, count in heads for n in range(first, first + count)] == list(range(frames))


def report(text, graph):
    """The report of the render that printed this journal."""
    events = [line.split(b" ") for line in text.split(b"\n") if line.count(b" ") == 3]
    counts = collections.Counter((word, int(node)) for word, _, node, _ in events)
    words = ((b"made", b"publish"), (b"hit", b"hit"), (b"evicted", b"evict"), (b"entered", b"enter"))
    rows = [b" ".join(b"%b %d" % (said, counts[word, i]) for said, word in words) for i in range(len(graph))]
    return b"".join(b"%d %b %b\n" % (i, node.name.encode(), row) for i, (node, row) in enumerate(zip(graph, rows)))


def rendered(t, dice, script):
    """The journal of a render of the script, with the size of its cache, or None where it failed."""
    workers, cache = dice.choice([1, 1, 2, 3, 4, 8, 16, dice.randint(1, 16)]), dice.choice(CACHES)
    words = ["render", "s.avs", "--cache", str(cache)]
    kind = dice.random()
    if kind < 0.25:
        words, workers = [*words, "--plain"], 1
    elif kind < 0.8 or not script.crew:
        words += ["--threads", str(workers)]
    else:
        workers = script.crew[0]
    status, plain, said = t.run(["render", "s.avs", "--plain"])
    came = t.run([*words, "--journal"])
    if not t.judge(f"{' '.join(words)}\n{script.text()}", (status, said, *came[:2]), (0, b"", 0, plain)):
        return None
    text, frames = came[2], script.graph[script.root].frames
    t.judge("the first line", text.split(b"\n")[0], b"workers %d" % workers)
    t.judge(f"the windows\n{script.text()}", follows(text, frames), True)
    if workers == 1:
        t.judge(f"the report\n{script.text()}", t.run([*words, "--report"])[2], report(text, script.graph))
    if first_wrong(script.graph, script.root, cache, text) is not None:
        t.judge(f"{' '.join(words)}, by the second reading", "no run", "a run")
    return text, cache


def put_script(t, dice, script):
    for name, frames in script.sources:
        t.put(name, stream(dice, frames, script.size))
    t.put("s.avs", script.text())
    return t.judge(f"the graph\n{script.text()}", t.run(["info", "s.avs"]), (0, script.info().encode(), b""))


def renders(t, count, seed):
    """Journals of renders: whole, damaged, with other caches, and of other scripts."""
    last = b""
    for at in range(count):
        dice = random.Random(f"{seed} render {at}")
        script = Script(dice)
        made = put_script(t, dice, script) and rendered(t, dice, script)
        if not made:
            continue
        text, cache = made
        lines, graph, root = text.split(b"\n")[:-1], script.graph, script.root
        t.replay(f"run {at}", graph, root, text, cache)
        for damage in DAMAGE:
            t.replay(f"run {at}, {damage.__name__}", graph, root, damage(dice, lines), cache)
        for other in {dice.choice(CACHES), cache + dice.choice([-1, 1])} & set(range(1, 257)):
            t.replay(f"run {at}, another cache", graph, root, text, other)
        t.replay(f"run {at}, the journal of another script", graph, root, last, cache)
        last = text


# ---- walks through the machine


def any_key(dice, machine):
    """A key, which may not be there, or may play a part in this state."""
    i = dice.randrange(len(machine.graph) + (dice.random() < 0.02))
    frames = machine.graph[i].frames if i < len(machine.graph) else 1
    claimed, inputs = list(machine.claims), [key for claim in machine.claims for key in machine.graph.inputs(claim)]
    return dice.choice(dice.choice([machine.cache, machine.cache[-1:], claimed, inputs]) or [(i, dice.randint(0, frames))])


def any_event(dice, machine):
    """An event, which may be lawful in this state."""
    near, worker = dice.random() < 0.85, dice.randint(0, machine.workers - (dice.random() < 0.97))
    word = dice.choice(["hit", "claim", "evict", "publish", "abandon", "enter", "leave", "take", "deliver", "fail"]).encode()
    key = any_key(dice, machine)
    if word == b"fail":
        return any_failure(dice, machine, worker)
    if word in (b"take", b"deliver"):
        return any_output(dice, machine, word, worker, near)
    if word == b"leave" and machine.out and near:
        key, worker = dice.choice(list(machine.out.items()))
    elif word not in (b"hit", b"claim") and machine.claims and near:
        key, worker = dice.choice(list(machine.claims.items()))
    if word == b"evict" and machine.cache and near:
        key = machine.cache[-1]
    if word == b"enter":
        key = (key[0], {3: 0}.get(machine.graph.mode(key[0]), worker) if near else dice.randint(0, machine.workers))
    return word, worker, *key


def any_output(dice, machine, word, worker, near):
    """An output is taken or delivered."""
    if word == b"take":
        return word, worker, machine.first + (len(machine.taken) if near else dice.randint(0, machine.count))
    made = [(by, n) for by, i, n in machine.got if i == machine.root and near]
    worker, n = dice.choice(sorted(made) or [(worker, machine.first + dice.randint(0, machine.count))])
    return word, worker, max(n - (dice.random() < 0.1), 0)


def any_failure(dice, machine, worker):
    told = [(by, i) for by, i in machine.entered if machine.graph.is_source(i) or dice.random() < 0.2]
    worker, source = dice.choice([*sorted(told), (worker, dice.randrange(len(machine.graph) + 1))])
    want = dice.choice([0, 1, 2, LARGE, dice.randint(0, LARGE)])
    got = dice.choice([max(want - 1, 0), want, 0, dice.randint(0, LARGE)])
    why = [(b"memory",), (b"read", source), (b"changed", source, dice.choice([0, 7, SMALL]), want, got)]
    return (b"fail", worker, *dice.choice(why))


class Walk:
    """Windows of lawful events at random."""

    def __init__(self, dice, graph, root, cache):
        self.dice, self.reading, self.lines = dice, Reading(graph, root, cache), []
        self.graph, self.root, self.workers = graph, root, dice.choice([1, 2, 3, dice.randint(1, 16)])
        self.says((b"workers", self.workers))
        for left in reversed(range(dice.randint(1, 4))):
            frames = graph[root].frames
            first = dice.randrange(frames)
            self.says((b"window", first, dice.randint(1, min(frames - first, MOST_FRAMES, 6))))
            self.machine = self.reading.machine
            self.wander(dice.choice([0, 5, 50, 200]))
            if self.machine.stopped or left == 0 and dice.random() < 0.5:
                break
            self.close()

    def says(self, event):
        if not self.reading.takes(spelled(event)):
            raise SystemExit(f"journal: the second reading refuses {event} after {self.lines[-20:]}")
        self.lines.append(spelled(event))

    def wander(self, count):
        """Events that the machine allows. An eviction comes only where its worker has something to publish."""
        fails = self.dice.random() < 0.3
        for _ in range(count):
            event = self.useful() if self.dice.random() < 0.6 else any_event(self.dice, self.machine)
            if event[0] == b"evict" and not self.ready(event[1]) or event[0] == b"fail" and not fails:
                continue
            if self.machine.allows(event):
                self.says(event)
                if event[0] == b"evict":
                    self.says((b"publish", event[1], *self.dice.choice(self.ready(event[1]))))

    def ready(self, worker):
        """The keys that the worker has claimed, and has all for."""
        return [key for key, by in self.machine.claims.items() if by == worker and not self.missing(worker, key)]

    def missing(self, worker, key):
        return [it for it in self.graph.inputs(key) if (worker, *it) not in self.machine.got]

    def useful(self):
        """An event that brings a claim or an output nearer to its end."""
        machine, dice = self.machine, self.dice
        wanted = [(by, key) for key, by in machine.claims.items()]
        wanted += [(by, (self.root, machine.first + at)) for at, by in enumerate(machine.taken)]
        if not wanted or dice.random() < 0.1:
            return b"take", dice.randrange(self.workers), machine.first + len(machine.taken)
        worker, key = dice.choice(wanted)
        if (worker, *key) in machine.got:
            return b"deliver", worker, key[1]
        if machine.claims.get(key) == worker:
            needed = self.missing(worker, key)
            if not needed:
                is_full = len(machine.cache) == machine.capacity
                return (b"evict", worker, *machine.cache[-1]) if is_full else (b"publish", worker, *key)
            key = dice.choice(needed)
        return (b"hit" if key in machine.cache else b"claim", worker, *key)

    def close(self):
        """Instances are left and claims given up; then the outputs are made one after the other."""
        machine = self.machine
        for place, worker in list(machine.out.items()):
            self.says((b"leave", worker, *place))
        for key, worker in list(machine.claims.items()):
            self.says((b"abandon", worker, *key))
        while len(machine.taken) < machine.count:
            self.says((b"take", self.dice.randrange(self.workers), machine.first + len(machine.taken)))
        for n, worker in enumerate(machine.taken, machine.first):
            if n not in machine.delivered:
                self.make(worker, (self.root, n))
                self.says((b"deliver", worker, n))

    def make(self, worker, key):
        machine, mode = self.machine, self.graph.mode(key[0])
        if (worker, *key) in machine.got:
            return
        if key in machine.cache:
            self.says((b"hit", worker, *key))
            return
        self.says((b"claim", worker, *key))
        for needed in self.graph.inputs(key):
            self.make(worker, needed)
        if mode > 1 and self.dice.random() < 0.8:
            for word in (b"enter", b"leave"):
                self.says((word, worker, key[0], 0 if mode == 3 else worker))
        if len(machine.cache) == machine.capacity:
            self.says((b"evict", worker, *machine.cache[-1]))
        self.says((b"publish", worker, *key))


def one_more(dice, graph, root, cache, lines):
    """Some lines of a journal, of which the last has each word equally often, and one that may follow."""
    word = dice.choice(sorted({line.split(b" ")[0] for line in lines}))
    lines = lines[: 1 + dice.choice([at for at, line in enumerate(lines) if line.startswith(word)])]
    reading = Reading(graph, root, cache)
    for line in lines:
        reading.takes(line)
    if reading.machine and dice.random() < 0.94:
        wanted = dice.random() < 0.5
        events = [any_event(dice, reading.machine) for _ in range(10)]
        return text_of([*lines, spelled(next((it for it in events if reading.machine.allows(it) == wanted), events[0]))])
    frames = graph[root].frames
    first = dice.randint(0, frames)
    more = (b"window", first, dice.choice([dice.randint(0, 33), min(frames - first, MOST_FRAMES) + dice.choice([0, 0, 1])]))
    return text_of([*lines, spelled(dice.choice([more, more, more, (b"workers", 1), (b"take", 0, 0)]))])


def walks(t, count, seed):
    for at in range(count):
        dice = random.Random(f"{seed} walk {at}")
        script, cache = Script(dice), dice.choice([*CACHES, 1, 2, 3, 6, 10])
        if not put_script(t, dice, script):
            continue
        graph, root = script.graph, script.root
        lines = Walk(dice, graph, root, cache).lines
        t.replay(f"walk {at}", graph, root, text_of(lines), cache, None)
        for damage in [*dice.sample(DAMAGE, 2), *[one_more] * 10]:
            if damage == one_more:
                t.replay(f"walk {at} and one more", graph, root, one_more(dice, graph, root, cache, lines), cache)
            elif len(lines) > 2:
                t.replay(f"walk {at}, {damage.__name__}", graph, root, damage(dice, lines), cache)


# ---- texts of which it is known what is wrong

# A source of four frames, and a loop of it with 400.
LONG = 'Y4MSource("m4.y4m")\nLoop(100)\n'
LONG_GRAPH = Graph([
    Node("Y4MSource", 3, [], 4, lambda n: [], (1, 1)),
    Node("Loop", 1, [0], 400, lambda n: [(0, n % 4)], (1, 1)),
])
# What comes before each text of a table.
NAMED = "workers 2\n"
BEGUN = NAMED + "window 0 1\n"
ENTERED = BEGUN + "claim 0 0 0\nenter 0 0 0\n"
PUBLISHED = ENTERED + "leave 0 0 0\npublish 0 0 0\n"
MADE = PUBLISHED + "take 0 0\nclaim 0 1 0\npublish 0 1 0\n"
DELIVERED = MADE + "deliver 0 0\n"
# Texts after each of these, with the first line that is wrong, counted from the text on, or 0 where none is.
TABLE = {
    "": {
        "": 1, "\n": 1, "workers 1": 1, "workers 1\n": 0, "workers 16\n": 0, "workers 17\n": 1, "workers 0\n": 1,
        "workers 01\n": 1, "workers 4294967295\n": 1, "workers 4294967296\n": 1, "workers 4294967297\n": 1,
        "workers 18446744073709551617\n": 1, f"workers {1 << 128 | 1}\n": 1, "workers 1\r\n": 1, " workers 1\n": 1,
        "workers  1\n": 1, "workers 1 \n": 1, "Workers 1\n": 1, "workers +1\n": 1, "workers -1\n": 1, "workers \n": 1,
        "workers\n": 1, "workers 1 1\n": 1, "workers\t1\n": 1, "worker 1\n": 1, "workers 1\n\n": 2,
        "workers 1\nworkers 1\n": 2, "workers 1\ntake 0 0\n": 2, "window 0 1\n": 1, "workers 1\0\n": 1,
        "\ufeffworkers 1\n": 1, "workers １\n": 1, "workers 1\nx": 2, "workers 1\n ": 2, "workers 1\n\r\n": 2,
        "workers 1x\n": 1, "workers 0x1\n": 1, "workers 1.0\n": 1, "workers 1e0\n": 1, "x" * 100_000: 1,
        "workers 1" + "0" * 100_000 + "\n": 1, "workers 1\r": 1, "workers 1\rwindow 0 1\n": 1, "# workers 1\n": 1,
        "workers 1 # one\n": 1,
    },
    NAMED: {
        "window 0 1\n": 0, "window 0 32\n": 0, "window 0 33\n": 1, "window 0 0\n": 1, "window 399 1\n": 0,
        "window 400 1\n": 1, "window 399 2\n": 1, "window 368 32\n": 0, "window 369 32\n": 1, "window 4294967295 1\n": 1,
        "window 4294967295 2\n": 1, "window 4294967264 32\n": 1, "window 4294967296 1\n": 1, "window 0 4294967297\n": 1,
        "window 00 1\n": 1, "window 0 01\n": 1, "window 0 1": 1, "window 0 1\r\n": 1, "window 0\n": 1, "window 0 1 \n": 1,
        "window 0 1 1\n": 1, "window  0 1\n": 1, "window 0 1\nwindow 0 1\n": 2, "workers 2\n": 1, "hit 0 0 0\n": 1,
        "claim 0 0 0\n": 1, "fail 0 memory\n": 1, "window -1 2\n": 1,
    },
    BEGUN: {
        "take 0 0\n": 0, "take 1 0\n": 0, "take 2 0\n": 1, "take 4294967295 0\n": 1, "take 4294967296 0\n": 1,
        "take 0 1\n": 1, "take 0 00\n": 1, "take 0 4294967296\n": 1, "take 00 0\n": 1, "take 0 0 0\n": 1, "take 0\n": 1,
        "take 0 0\ntake 0 0\n": 2, "take 0 0\ntake 0 1\n": 2, "take 0 0\ndeliver 0 0\n": 2, "claim 0 0 3\n": 0,
        "claim 0 0 4\n": 1, "claim 0 1 399\n": 0, "claim 0 1 400\n": 1, "claim 0 2 0\n": 1, "claim 0 4294967295 0\n": 1,
        "claim 0 4294967296 0\n": 1, "claim 0 0 4294967295\n": 1, "claim 0 0 4294967296\n": 1,
        "claim 0 0 0\nclaim 0 0 0\n": 2, "claim 0 0 0\nclaim 1 0 0\n": 2, "hit 0 0 0\n": 1, "evict 0 0 0\n": 1,
        "publish 0 0 0\n": 1, "abandon 0 0 0\n": 1, "enter 0 0 0\n": 1, "leave 0 0 0\n": 1, "deliver 0 0\n": 1,
        "enter 0 4294967295 0\n": 1, "leave 0 4294967295 0\n": 1, "enter 0 2 0\n": 1, "leave 0 0 4294967296\n": 1,
        "fail 0 read 0\n": 1, "claim 0 0 0\nenter 0 0 1\n": 2, "claim 1 0 0\nenter 1 0 1\n": 2,
        "claim 1 0 0\nenter 1 0 0\n": 0, "claim 0 0 0\nenter 1 0 0\n": 2, "claim 0 1 0\nenter 0 1 0\n": 2,
        "claim 0 1 0\nenter 0 0 0\n": 2, "claim 0 1 0\npublish 0 1 0\n": 2, "claim 0 0 0\npublish 0 0 0\n": 0,
        "claim 0 0 0\npublish 1 0 0\n": 2, "claim 0 0 0\nabandon 1 0 0\n": 2,
        "claim 0 0 0\nabandon 0 0 0\nabandon 0 0 0\n": 3, "claim 0 0 0\nclaim 1 0 1\nenter 0 0 0\nenter 1 0 0\n": 4,
        "window 0 1\n": 1, "workers 2\n": 1, "\n": 1, "take 0 0": 1, "Take 0 0\n": 1, "take 0 0\r\n": 1,
    },
    ENTERED: {
        "fail 0 memory\n": 0, "fail 1 memory\n": 0, "fail 2 memory\n": 1, "fail 0 memory \n": 1, "fail 0 memory 0\n": 1,
        "fail 0\n": 1, "fail\n": 1, "fail 0 \n": 1, "fail 0  memory\n": 1, "fail 0 Memory\n": 1, "fail 0 memor\n": 1,
        "fail memory\n": 1, "fail 0 read 0\n": 0, "fail 0 read 00\n": 1, "fail 0 read 1\n": 1, "fail 0 read 2\n": 1,
        "fail 1 read 0\n": 1, "fail 0 read\n": 1, "fail 0 read 4294967296\n": 1, "fail 0 read 0 0\n": 1,
        "fail 4294967296 memory\n": 1, "fail 00 memory\n": 1, "fail 0 changed 0 4294967295 1 0\n": 0,
        "fail 0 changed 0 4294967296 1 0\n": 1, "fail 0 changed 0 0 1 1\n": 1, f"fail 0 changed 0 0 {LARGE} {LARGE - 1}\n": 0,
        f"fail 0 changed 0 0 {LARGE + 1} 0\n": 1, f"fail 0 changed 0 0 {LARGE} {LARGE}\n": 1,
        f"fail 0 changed 0 0 {LARGE + 2} {LARGE + 1}\n": 1, f"fail 0 changed 0 0 {LARGE} {LARGE + 1}\n": 1,
        "fail 0 changed 0 0 0 1\n": 1, f"fail 0 changed 0 0 0{LARGE} 0\n": 1,
        "fail 0 changed 0 0 99999999999999999999 0\n": 1, "fail 0 changed 0 0 1 00\n": 1,
        "fail 0 changed 0 0 4294967296 4294967295\n": 0, "fail 0 changed 1 0 1 0\n": 1, "fail 1 changed 0 0 1 0\n": 1,
        "fail 0 changed 0 0 1\n": 1, "fail 0 changed 0 0 1 0 0\n": 1, "fail 0 memory\nfail 0 memory\n": 2,
        "fail 0 memory\nfail 1 memory\n": 0, "fail 0 memory\nclaim 1 0 1\n": 2, "fail 0 memory\ntake 1 0\n": 2,
        "fail 1 memory\nleave 0 0 0\nenter 0 0 0\n": 3, "fail 1 memory\nleave 0 0 0\npublish 0 0 0\n": 0,
        "fail 0 memory\nleave 0 0 0\nabandon 0 0 0\n": 0, "fail 0 memory\nleave 0 0 0\npublish 0 0 0\nhit 0 0 0\n": 4,
        "fail 0 memory\nleave 0 0 0\nabandon 0 0 0\nwindow 0 1\n": 4, "publish 0 0 0\n": 1, "leave 1 0 0\n": 1,
        "leave 0 0 1\n": 1, "leave 0 1 0\n": 1, "enter 0 0 0\n": 1, "abandon 0 0 0\n": 0, "leave 0 0 0\nleave 0 0 0\n": 2,
        "leave 0 0 0\nenter 0 0 0\n": 0, "abandon 0 0 0\nenter 0 0 0\n": 2, "hit 0 0 0\n": 1,
    },
    PUBLISHED: {
        "hit 1 0 0\n": 0, "hit 0 0 0\n": 0, "hit 2 0 0\n": 1, "hit 0 0 1\n": 1, "claim 1 0 0\n": 1, "abandon 0 0 0\n": 1,
        "publish 0 0 0\n": 1, "claim 1 1 0\npublish 1 1 0\n": 2, "claim 1 1 0\nhit 1 0 0\npublish 1 1 0\n": 0,
        "claim 0 1 4\npublish 0 1 4\n": 0, "claim 0 1 1\npublish 0 1 1\n": 2, "claim 0 1 0\nevict 0 0 0\n": 2,
        "enter 0 0 0\n": 1, "window 1 1\n": 1, "deliver 0 0\n": 1, "fail 0 read 0\n": 0, "fail 1 read 0\n": 1,
    },
    MADE: {
        "deliver 0 0\n": 0, "deliver 1 0\n": 1, "deliver 0 1\n": 1, "deliver 0 4294967296\n": 1, "deliver 0 00\n": 1,
        "window 0 1\n": 1, "deliver 0 0\ndeliver 0 0\n": 2, "deliver 0 0\nwindow 0 1\n": 0,
        "deliver 0 0\nclaim 0 1 1\nwindow 1 1\n": 3,
    },
    DELIVERED: {
        "window 399 1\n": 0, "window 0 1\ntake 1 0\nhit 1 1 0\ndeliver 1 0\n": 0, "window 0 1\ntake 0 0\ndeliver 0 0\n": 3,
        "window 0 1\nfail 0 read 0\n": 2, "window 1 1\ntake 0 0\n": 2, "window 1 1\ntake 0 1\ndeliver 0 0\n": 3,
        "take 0 1\n": 1, "window 0 1\nclaim 0 1 4\npublish 0 1 4\n": 3, "window 0 1\nclaim 0 0 0\n": 2,
        "claim 0 1 1\nabandon 0 1 1\nwindow 0 1\n": 0,
    },
}


# Two sources, a filter of mode 3 over the first, one of mode 2 over the second, and one of mode 1 that shows a frame of each in
# turn.
MODES = """
SetFilterMTMode("Reverse", 3, true)
SetFilterMTMode("FlipVertical", 2, true)
a = Y4MSource("m4.y4m")
b = Y4MSource("m4.y4m")
c = a.Reverse
d = b.FlipVertical
Interleave(c, d)
"""
MODES_GRAPH = Graph([
    Node("Y4MSource", 3, [], 4, lambda n: [], (1, 1)),
    Node("Y4MSource", 3, [], 4, lambda n: [], (1, 1)),
    Node("Reverse", 3, [0], 4, lambda n: [(0, 3 - n)], (1, 1)),
    Node("FlipVertical", 2, [1], 4, lambda n: [(0, n)], (1, 1)),
    Node("Interleave", 1, [2, 3], 8, lambda n: [(n % 2, n // 2)], (1, 1)),
])
INTERLEAVED = BEGUN + "take 0 0\nclaim 0 4 0\nclaim 0 2 0\nclaim 0 0 3\npublish 0 0 3\npublish 0 2 0\npublish 0 4 0\n"
INTERLEAVED += "claim 1 1 0\nenter 1 1 0\n"
MODES_TABLE = {
    BEGUN: {
        "claim 0 0 0\nclaim 0 1 0\nenter 0 0 0\nenter 0 1 0\n": 4, "claim 0 0 0\nclaim 1 1 0\nenter 0 0 0\nenter 1 1 0\n": 0,
        "claim 0 0 0\nclaim 0 1 0\nenter 0 0 0\nleave 0 0 0\nenter 0 1 0\n": 0, "claim 0 3 0\nenter 0 3 0\n": 0,
        "claim 1 3 0\nenter 1 3 1\n": 0, "claim 1 3 0\nenter 1 3 0\n": 2, "claim 0 3 0\nenter 0 3 1\n": 2,
        "claim 0 3 0\nclaim 1 3 1\nenter 0 3 0\nenter 1 3 1\n": 0, "claim 0 3 0\nclaim 1 3 1\nenter 0 3 0\nenter 1 3 0\n": 4,
        "claim 0 2 0\nclaim 1 2 1\nenter 0 2 0\nenter 1 2 0\n": 4, "claim 0 2 0\nclaim 1 2 1\nenter 0 2 0\nenter 1 2 1\n": 4,
        "claim 0 4 0\nenter 0 4 0\n": 2, "claim 0 3 0\nenter 0 3 0\nleave 1 3 0\n": 3,
        "claim 0 3 0\nenter 0 3 0\nleave 0 3 1\n": 3, "claim 0 3 0\nenter 0 3 0\nleave 1 3 1\n": 3,
        "claim 0 3 0\nenter 0 3 0\nleave 0 2 0\n": 3, "leave 0 4 0\n": 1, "claim 0 2 0\nenter 0 2 0\nfail 0 read 2\n": 3,
        "claim 0 2 0\nenter 0 2 0\nfail 0 changed 2 0 1 0\n": 3, "claim 0 3 0\nenter 0 3 0\nfail 0 read 3\n": 3,
        "claim 0 0 0\nenter 0 0 0\nfail 0 read 1\n": 3, "claim 0 1 0\nenter 0 1 0\nfail 0 read 1\n": 0,
        "claim 0 1 0\nenter 0 1 0\nleave 0 1 0\nfail 0 read 1\n": 0,
        "claim 0 1 0\nenter 0 1 0\nleave 0 1 0\nabandon 0 1 0\nfail 0 changed 1 9 2 1\n": 0,
        "claim 0 1 0\nenter 0 1 0\nabandon 0 1 0\nleave 0 1 0\n": 0,
        "claim 0 1 0\nenter 0 1 0\nabandon 0 1 0\nclaim 1 1 0\nenter 1 1 0\n": 5,
        "claim 0 1 0\nenter 0 1 0\nclaim 1 1 1\npublish 1 1 1\n": 0,
        "claim 0 1 0\nclaim 0 0 0\nenter 0 1 0\npublish 0 0 0\n": 4,
        "claim 0 2 0\nclaim 0 0 0\npublish 0 0 0\npublish 0 2 0\n": 4,
        "claim 0 2 0\nclaim 0 0 3\npublish 0 0 3\npublish 0 2 0\n": 0,
        "claim 0 0 3\npublish 0 0 3\nclaim 1 2 0\npublish 1 2 0\n": 4,
        "claim 0 0 3\npublish 0 0 3\nclaim 1 2 0\nhit 1 0 3\npublish 1 2 0\n": 0,
        "claim 0 4 1\nclaim 0 3 0\nclaim 0 1 0\npublish 0 1 0\npublish 0 3 0\npublish 0 4 1\n": 0,
        "claim 0 4 7\nclaim 0 4 8\n": 2,
    },
    INTERLEAVED: {
        "deliver 0 0\nwindow 0 1\n": 2, "leave 1 1 0\ndeliver 0 0\nwindow 0 1\n": 3,
        "abandon 1 1 0\ndeliver 0 0\nwindow 0 1\n": 3, "leave 1 1 0\nabandon 1 1 0\ndeliver 0 0\nwindow 0 1\n": 0,
        "leave 1 1 0\npublish 1 1 0\ndeliver 0 0\nwindow 7 1\n": 0, "leave 1 1 0\npublish 1 1 0\nwindow 7 1\n": 3,
        "leave 1 1 0\npublish 1 1 0\ndeliver 0 0\nwindow 8 1\n": 4, "deliver 1 0\n": 1,
        "leave 1 1 0\nabandon 1 1 0\ndeliver 0 0\nfail 0 memory\nwindow 0 1\n": 5, "hit 1 4 0\ndeliver 1 0\n": 2,
    },
}


def both_say(t, graph, before, text, cache, wrong):
    """Program and second reading name this line, counted from the text on, or none where it is 0."""
    data, line = (before + text).encode(), before.count("\n") + wrong if wrong else None
    t.judge(f"the second reading of {data[-200:]}, cache {cache}", first_wrong(graph, len(graph) - 1, cache, data), line)
    t.replay(f"{text[:200]!r}", graph, len(graph) - 1, data, cache, line)


def tables(t):
    """Each text of the tables."""
    for script, graph, table in ((LONG, LONG_GRAPH, TABLE), (MODES, MODES_GRAPH, MODES_TABLE)):
        t.put("s.avs", script)
        for before, texts in table.items():
            for text, wrong in texts.items():
                both_say(t, graph, before, text, 64, wrong)


def full_caches(t):
    """Caches that are full, and what has to leave them."""
    t.put("s.avs", LONG)
    sources = "".join(f"claim 0 0 {n}\npublish 0 0 {n}\n" for n in range(4))
    for cache in (5, 64, 255, 256):
        loops = "".join(f"claim 0 1 {n}\npublish 0 1 {n}\n" for n in range(cache - 4))
        before, next_one = BEGUN + sources + loops + f"claim 0 1 {cache - 4}\n", f"publish 0 1 {cache - 4}\n"
        # Another worker can publish as well, and then frame 3 of the source is not the last one.
        both = "claim 1 1 399\nhit 1 0 3\n"
        for text, wrong in (
            ("", 0), (next_one, 1), ("evict 0 0 0\n" + next_one, 0), ("evict 0 0 1\n" + next_one, 1),
            ("evict 1 0 0\n" + next_one, 1), ("evict 0 0 0\ntake 0 0\n", 2), ("evict 0 0 0\nevict 0 0 1\n", 2),
            ("evict 0 0 0\nwindow 0 1\n", 2), ("hit 1 0 0\nevict 0 0 1\n" + next_one, 0), ("hit 1 0 0\nevict 0 0 0\n", 2),
            (both + "evict 0 0 0\npublish 1 1 399\n", 4), (both + "evict 1 0 0\n" + next_one, 4),
            (both + "evict 1 0 0\npublish 1 1 399\nevict 0 0 1\n" + next_one, 0),
            ("evict 0 0 0\n" + next_one + "claim 0 0 0\npublish 0 0 0\n", 4),
            (f"abandon 0 1 {cache - 4}\nevict 0 0 0\n", 2),
        ):
            both_say(t, LONG_GRAPH, before, text, cache, wrong)
        for other in {cache - 1, cache + 1, 1, 256} & set(range(1, 257)):
            t.replay("a full cache and another size", LONG_GRAPH, 1, (before + "evict 0 0 0\n" + next_one).encode(), other)


def one_frame_cached(t):
    """Caches of one frame, and workers that have instances."""
    t.put("s.avs", MODES)
    before = BEGUN + "claim 0 0 0\npublish 0 0 0\nclaim 0 1 0\n"
    for text, wrong in (
        ("enter 0 1 0\nevict 0 0 0\n", 2), ("enter 0 1 0\nleave 0 1 0\nevict 0 0 0\npublish 0 1 0\n", 0),
        ("claim 1 1 1\nenter 1 1 0\nevict 0 0 0\npublish 0 1 0\n", 0), ("evict 0 0 0\nenter 0 1 0\n", 2), ("evict 1 0 0\n", 1),
        ("evict 0 0 0\nabandon 0 1 0\n", 2), ("evict 0 0 0\nfail 0 memory\n", 2),
        ("fail 0 memory\nevict 0 0 0\npublish 0 1 0\n", 0),
    ):
        both_say(t, MODES_GRAPH, before, text, 1, wrong)


def large_texts(t):
    """As many bytes as there may be, and one more, which is too long whatever it says."""
    t.put("s.avs", 'Y4MSource("m4.y4m").Loop(250000)')
    made = "".join(f"claim 0 0 {n}\npublish 0 0 {n}\n" for n in range(4))
    made += "".join(f"claim 0 1 {n}\npublish 0 1 {n}\n" for n in (5, 10, 999_999))
    text = (BEGUN + made + "take 0 0\nclaim 0 1 0\npublish 0 1 0\ndeliver 0 0\n").encode()
    window = b"window 999999 1\ntake 1 999999\nhit 1 1 999999\ndeliver 1 999999\n"
    text += window * ((MOST_BYTES - len(text)) // len(window) - 3) + window[:30]
    # The rest are lines of 10 and of 11 bytes.
    left = MOST_BYTES - len(text)
    text += b"hit 1 1 10\n" * (left % 10) + b"hit 1 1 5\n" * (left // 10 - left % 10)
    lines = text.count(b"\n")
    for what, data, answered in (
        ("a text of most bytes", text, b"run: %d lines\n" % lines),
        ("the same without its last newline", text[:-1] + b" ", b"not a run: line %d\n" % lines),
        ("newlines", b"\n" * MOST_BYTES, b"not a run: line 1\n"),
        ("a line that does not end", b"workers 1\nwindow 0 1" + b"0" * (MOST_BYTES - 20), b"not a run: line 2\n"),
        ("one byte more", text + b"\n", None),
        ("one byte more, and wrong from the first line on", b"x" * (MOST_BYTES + 1), None),
    ):
        t.put("large.txt", data)
        wanted = (0, answered, b"") if answered else (3, b"", b"input fault: large.txt: JournalTooLong\n")
        t.judge(f"{len(data)} bytes: {what}", t.run(["replay", "s.avs", "large.txt"]), wanted)
    os.unlink(os.path.join(t.folder, "large.txt"))
    t.judge("no end", t.run(["replay", "s.avs", "/dev/zero"]), (3, b"", b"input fault: /dev/zero: JournalTooLong\n"))


# ---- the program beside its texts

ONE_FRAME = (
    b"workers 1\nwindow 0 1\ntake 0 0\nclaim 0 1 0\nclaim 0 0 0\nenter 0 0 0\nleave 0 0 0\npublish 0 0 0\npublish 0 1 0\n"
    b"deliver 0 0\n"
)


def worked(t):
    """The journal of one frame, byte for byte, and of a script with a crew."""
    t.put("s.avs", 'Y4MSource("m4.y4m").Trim(0, -1)')
    came = t.run(["render", "s.avs", "--plain", "--journal"])
    t.judge("the journal of one frame", came, (0, M4[: M4.index(b"FRAME") + 7], ONE_FRAME))
    t.put("j.txt", ONE_FRAME)
    without = ONE_FRAME.split(b"\n")
    t.put("without.txt", b"\n".join(without[:5] + without[6:]))
    for words, answered in (
        (["j.txt"], b"run: 10 lines\n"), (["without.txt"], b"not a run: line 6\n"),
        (["j.txt", "--cache", "1"], b"not a run: line 9\n"),
    ):
        t.judge(f"{words}", t.run(["replay", "s.avs", *words]), (0, answered, b""))
    t.put("s.avs", 'a = Y4MSource("m4.y4m")\nb = Y4MSource("m4.y4m").Reverse\nInterleave(a, b).Prefetch(4)\n')
    frames = b"".join(b"FRAME\n" + bytes([n]) for n in (0, 3, 1, 2, 2, 1, 3, 0))
    for words in ([], ["--plain"], ["--threads", "2"], ["--cache", "1"]):
        status, out, text = t.run(["render", "s.avs", "--journal", *words])
        t.judge(f"frames in turn, {words}", (status, out[-len(frames) :]), (0, frames))
        t.put("j.txt", text)
        came = t.run(["replay", "s.avs", "j.txt", *words[: 2 * ("--cache" in words)]])
        t.judge(f"the journal of {words}", came, (0, b"run: %d lines\n" % text.count(b"\n"), b""))


def words_of_both(t):
    """Words that are refused, and the places where they may stand."""
    t.put("s.avs", 'Y4MSource("m4.y4m").Trim(0, -1)')
    t.put("j.txt", ONE_FRAME)
    render, replay = ["render", "s.avs"], ["replay", "s.avs", "j.txt"]
    for words in (
        [*render, "--journal", "--report"], [*render, "--report", "--plain", "--journal"], [*render, "--journal", "--journal"],
        [*render, "--journal=1"], [*render, "--Journal"], ["render", "--journal"], ["info", "s.avs", "--journal"],
        ["session", "s.avs", "j.txt", "--journal"], ["selftest", "0", "--journal"], ["replay"], ["replay", "s.avs"],
        [*replay, "j.txt"], [*replay, "--journal"], [*replay, "--report"], [*replay, "--plain"], [*replay, "--threads", "1"],
        [*replay, "--cache"], [*replay, "--cache", "0"], [*replay, "--cache", "257"], [*replay, "--cache=4294967297"],
        [*replay, "--cache", "1", "--cache", "1"], ["Replay", "s.avs", "j.txt"], ["replay", "s.avs", "-j.txt"],
    ):
        t.judge(f"{words}", t.run(words), (1, b"", USAGE.encode()))
    frame = M4[: M4.index(b"FRAME") + 7]
    for words in (
        ["--journal", "--plain", "s.avs"], ["s.avs", "--plain", "--journal", "--cache", "256"],
        ["--threads=1", "--journal", "--", "s.avs"], ["--plain", "s.avs", "--threads", "9", "--journal", "--cache=2"],
    ):
        t.judge(f"render {words}", t.run(["render", *words]), (0, frame, ONE_FRAME))
    for words in (
        ["--cache", "64", "s.avs", "j.txt"], ["s.avs", "--cache=2", "j.txt"], ["--cache", "256", "--", "s.avs", "j.txt"],
    ):
        t.judge(f"replay {words}", t.run(["replay", *words]), (0, b"run: 10 lines\n", b""))


def files(t):
    """Journals that are no files, have other names, or come by standard input, and faults that come before them."""
    good, none = (0, b"run: 10 lines\n", b""), (3, b"", b"input fault: none.txt: NotThere\n")
    read_fault = (4, b"", b"read fault\n")
    t.put("s.avs", 'Y4MSource("m4.y4m").Trim(0, -1)')
    for name in ("j.txt", "-j.txt", "ü €.txt", " j%s.txt "):
        t.put(name, ONE_FRAME)
        t.judge(f"the journal {name!r}", t.run(["replay", "--", "s.avs", name]), good)
    for name, wanted in (
        ("none.txt", none), ("", (3, b"", b"input fault: : NotThere\n")), ("./j.txt", good), (".", read_fault),
        ("j.txt/x", read_fault), ("/dev/null", (0, b"not a run: line 1\n", b"")), ("m4.y4m", (0, b"not a run: line 1\n", b"")),
    ):
        t.judge(f"the journal {name!r}", t.run(["replay", "s.avs", name]), wanted)
    t.put("zero.avs", "\nx = 1 / 0")
    t.put("absent.avs", 'Y4MSource("none.y4m")')
    t.put("number.avs", "5")
    for script, wanted in (
        ("none.avs", (2, b"", b"script fault: none.avs line 0: NotThere\n")), (".", read_fault),
        ("zero.avs", (2, b"", b"script fault: zero.avs line 2: DivZero\n")),
        ("number.avs", (2, b"", b"script fault: number.avs line 1: NotClip\n")),
        ("absent.avs", (3, b"", b"input fault: none.y4m: NotThere\n")),
    ):
        for words in (["replay", script, "none.txt"], ["replay", script, "j.txt"], ["render", script, "--journal"]):
            t.judge(f"{words}", t.run(words), wanted)
    # Standard input can be had once.
    given_by = ((["s.avs", "-"], "j.txt", good), (["-", "j.txt"], "s.avs", good), (["-", "-"], "s.avs", read_fault))
    for words, given, wanted in given_by:
        with open(os.path.join(t.folder, given), "rb") as file:
            t.judge(f"{words} with {given} as standard input", t.run(["replay", *words], stdin=file), wanted)
        with subprocess.Popen(["cat", given], cwd=t.folder, stdout=subprocess.PIPE) as cat:
            t.judge(f"{words} with {given} through a pipe", t.run(["replay", *words], stdin=cat.stdout), wanted)


def outputs(t):
    """Outputs that fail."""
    t.put("s.avs", 'Y4MSource("m4.y4m").Loop(1000)')
    t.put("j.txt", ONE_FRAME)
    whole = t.run(["render", "s.avs"])[1]
    with open("/dev/full", "wb", buffering=0) as full:
        for words in (["--plain"], ["--threads", "4"], []):
            came = t.run(["render", "s.avs", "--journal", *words], stderr=full)
            t.judge(f"standard error is full, {words}", came[:2], (5, whole))
            came = t.run(["render", "s.avs", "--journal", *words], stdout=full)
            t.judge(f"standard output is full, {words}", (came[0], came[2]), (5, b"write fault\n"))
            came = t.run(["render", "s.avs", "--journal", *words], stdout=full, stderr=full)
            t.judge(f"both are full, {words}", came[0], 5)
        came = t.run(["replay", "s.avs", "j.txt"], stdout=full)
        t.judge("a replay whose output is full", (came[0], came[2]), (5, b"write fault\n"))
    reader, writer = os.pipe()
    os.close(reader)
    came = t.run(["render", "s.avs", "--journal"], stderr=writer)
    t.judge("standard error is closed", came[:2], (5, whole))
    came = t.run(["replay", "s.avs", "j.txt"], stdout=writer)
    t.judge("a replay whose output is closed", (came[0], came[2]), (5, b"write fault\n"))
    os.close(writer)


def at_work(text):
    """The workers that a journal names, and the most outputs that were being made at once."""
    workers, open_now, most = set(), 0, 0
    for line in text.decode().splitlines():
        words = line.split(" ")
        if words[0] == "take":
            workers.add(words[1])
            open_now += 1
            most = max(most, open_now)
        elif words[0] == "deliver":
            open_now -= 1
    return len(workers), most


def crews(t):
    """As many workers as were asked for are seen at work at once, in one of a few renders of frames that take their time."""
    t.put("slow.avs", 'BlankClip(width=1280, height=720, length=32, pixel_type="YV12").GeneralConvolution(0, "1 2 1 2 4 2 1 2 1").Invert')
    for threads in (1, 2, 3, 4, 8, 16):
        seen = []
        while len(seen) < 20 and (threads, threads) not in seen:
            status, _, err = t.run(["render", "slow.avs", "--threads", str(threads), "--journal"])
            seen.append(at_work(err) if status == 0 else status)
        t.judge(f"{threads} workers are asked for", (threads, threads) in seen and max(seen) == (threads, threads), True)


def main():
    parser = argparse.ArgumentParser(description=__doc__, formatter_class=argparse.RawDescriptionHelpFormatter)
    parser.add_argument("--runs", type=int, default=60)
    parser.add_argument("--walks", type=int, default=60)
    parser.add_argument("--seed", type=int, default=1)
    parser.add_argument("--keep")
    options = parser.parse_args()
    if "AVSSERVE" not in os.environ:
        subprocess.run([os.path.join(ROOT, "build")], check=True, stdout=subprocess.DEVNULL)
    with tempfile.TemporaryDirectory() as folder, concurrent.futures.ThreadPoolExecutor(3) as pool:
        t = Runs(folder, pool, options.keep)
        t.put("m4.y4m", M4)
        for part in (worked, words_of_both, files, outputs, crews, tables, full_caches, one_frame_cached, large_texts):
            part(t)
        renders(t, options.runs, options.seed)
        walks(t, options.walks, options.seed)
        t.settle()
    texts = f"{t.answers['runs']} texts that are runs and {t.answers['others']} that are not"
    print(f"journal: {options.runs} renders, {options.walks} walks, {texts}, {t.count} comparisons, {t.wrong} wrong")
    return 1 if t.wrong else 0


if __name__ == "__main__":
    sys.exit(main())
