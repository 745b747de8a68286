"""A second reading of what a journal may say: tests/journal.py holds the program against it.

It is written from the definitions alone, rule by rule, and is meant to be read, not to be fast. A graph is a list of nodes. A
key is a pair of a node and the number of a frame. An event is its word, its worker, and then its numbers.
"""

import re
from fractions import Fraction

MOST_WORKERS, MOST_FRAMES = 16, 32
SMALL, LARGE = (1 << 32) - 1, (1 << 64) - 1
# How many numbers follow a word.
COUNTS = {
    b"workers": 1, b"window": 2, b"take": 2, b"deliver": 2, b"hit": 3, b"claim": 3, b"evict": 3, b"publish": 3, b"abandon": 3,
    b"enter": 3, b"leave": 3,
}


class Node:
    """A filter of the graph: its name, its mode, the nodes of its inputs, and its clip. Of frame n it asks the inputs and the
    numbers that `asks` tells, in order. Numbers past the end of an input stand for its last frame.
    """

    def __init__(self, name, mode, inputs, frames, asks, size, rate=Fraction(25)):
        self.name, self.mode, self.inputs, self.frames, self.asks = name, mode, inputs, frames, asks
        self.size, self.rate = size, rate


class Graph(list):
    """Nodes, each over earlier ones."""

    def inputs(self, key):
        """The keys that a frame is made of."""
        node, n = self[key[0]], key[1]
        places = [(node.inputs[at], number) for at, number in node.asks(n)]
        return [(i, min(max(number, 0), self[i].frames - 1)) for i, number in places]

    def has(self, key):
        return key[0] < len(self) and key[1] < self[key[0]].frames

    def mode(self, i):
        return self[i].mode if i < len(self) else 1

    def is_source(self, i):
        return i < len(self) and self[i].name == "Y4MSource"


class Machine:
    """A window: what each event needs, and what it changes."""

    def __init__(self, graph, root, capacity, workers, cache, first, count):
        self.graph, self.root, self.capacity, self.workers = graph, root, capacity, workers
        self.first, self.count = first, count
        # The keys in the cache, the most recently used first.
        self.cache = cache
        # Who has claimed a key, and who has an instance of a node.
        self.claims, self.out = {}, {}
        # The keys that each worker got, and the nodes that it entered.
        self.got, self.entered = set(), set()
        # Who took the outputs so far, and which of them are delivered.
        self.taken, self.delivered = [], set()
        # Whose publication is awaited, who failed, and whether that is what the window ends by.
        self.awaited, self.failed, self.stopped = None, set(), False

    def finished(self):
        """Nothing is open, and every output is delivered."""
        is_open = self.claims or self.out or self.stopped or self.awaited is not None
        return not is_open and len(self.delivered) == self.count

    def allows(self, event):
        word, worker, *rest = event
        if self.awaited is not None and (word != b"publish" or worker != self.awaited):
            return False
        return worker < self.workers and getattr(self, f"may_{word.decode()}")(worker, *rest)

    def does(self, event):
        word, worker, *rest = event
        getattr(self, f"do_{word.decode()}")(worker, *rest)

    def is_idle(self, worker):
        """No instance is out with the worker."""
        return worker not in self.out.values()

    def may_hit(self, worker, i, n):
        return (i, n) in self.cache and self.claims.get((i, n)) != worker and not self.stopped

    def do_hit(self, worker, i, n):
        self.cache.remove((i, n))
        self.cache.insert(0, (i, n))
        self.got.add((worker, i, n))

    def may_claim(self, worker, i, n):
        key = (i, n)
        return self.graph.has(key) and key not in self.cache and key not in self.claims and not self.stopped

    def do_claim(self, worker, i, n):
        self.claims[i, n] = worker

    def may_enter(self, worker, i, j):
        has_claim = any(node == i and by == worker for (node, _), by in self.claims.items())
        meant = {2: worker, 3: 0}.get(self.graph.mode(i))
        return has_claim and self.is_idle(worker) and j == meant and (i, j) not in self.out and not self.stopped

    def do_enter(self, worker, i, j):
        self.out[i, j] = worker
        self.entered.add((worker, i))

    def may_leave(self, worker, i, j):
        return self.out.get((i, j)) == worker

    def do_leave(self, worker, i, j):
        del self.out[i, j]

    def may_evict(self, worker, i, n):
        is_full = len(self.cache) == self.capacity
        return worker in self.claims.values() and self.is_idle(worker) and is_full and self.cache[-1] == (i, n)

    def do_evict(self, worker, i, n):
        self.cache.pop()
        self.awaited = worker

    def may_publish(self, worker, i, n):
        if self.claims.get((i, n)) != worker or not self.is_idle(worker) or len(self.cache) >= self.capacity:
            return False
        return all((worker, *key) in self.got for key in self.graph.inputs((i, n)))

    def do_publish(self, worker, i, n):
        del self.claims[i, n]
        self.cache.insert(0, (i, n))
        self.got.add((worker, i, n))
        self.awaited = None

    def may_abandon(self, worker, i, n):
        return self.claims.get((i, n)) == worker

    def do_abandon(self, worker, i, n):
        del self.claims[i, n]

    def may_take(self, worker, n):
        return n == self.first + len(self.taken) and len(self.taken) < self.count and not self.stopped

    def do_take(self, worker, n):
        self.taken.append(worker)

    def may_deliver(self, worker, n):
        place = n - self.first
        is_taken = 0 <= place < len(self.taken) and self.taken[place] == worker
        return is_taken and n not in self.delivered and (worker, self.root, n) in self.got

    def do_deliver(self, worker, n):
        self.delivered.add(n)

    def may_fail(self, worker, why, *rest):
        if worker in self.failed:
            return False
        if why == b"memory":
            return True
        is_told = self.graph.is_source(rest[0]) and (worker, rest[0]) in self.entered
        return is_told and (why == b"read" or rest[3] < rest[2])

    def do_fail(self, worker, *why):
        self.failed.add(worker)
        self.stopped = True


class Reading:
    """A journal as far as it is read."""

    def __init__(self, graph, root, capacity):
        self.graph, self.root, self.capacity, self.workers, self.machine = graph, root, capacity, None, None

    def is_window(self, first, count):
        return 1 <= count <= MOST_FRAMES and first + count <= self.graph[self.root].frames

    def begin(self, first, count):
        cache = self.machine.cache if self.machine else []
        self.machine = Machine(self.graph, self.root, self.capacity, self.workers, cache, first, count)

    def takes(self, line):
        """Whether the line may come next. If so, it is read."""
        found = read(line)
        if not found:
            return False
        if self.workers is None:
            self.workers = found[1] if found[0] == b"workers" and 1 <= found[1] <= MOST_WORKERS else None
            return self.workers is not None
        if found[0] == b"window":
            if not self.is_window(*found[1:]) or self.machine and not self.machine.finished():
                return False
            self.begin(*found[1:])
            return True
        if found[0] == b"workers" or not self.machine or not self.machine.allows(found):
            return False
        self.machine.does(found)
        return True


def number(text, most):
    """The number that a text spells, or None."""
    found = re.fullmatch(rb"0|[1-9][0-9]{0,19}", text)
    return int(text) if found and int(text) <= most else None


def read(line):
    """The word of a line and its numbers, or None where it is no line of a journal."""
    word, *parts = line.split(b" ")
    if word == b"fail":
        return read_failure(parts)
    numbers = [number(part, SMALL) for part in parts]
    return None if len(parts) != COUNTS.get(word) or None in numbers else (word, *numbers)


def read_failure(parts):
    most = {b"memory": [], b"read": [SMALL], b"changed": [SMALL, SMALL, LARGE, LARGE]}
    why = most.get(parts[1]) if len(parts) > 1 else None
    if why is None or len(parts) != 2 + len(why):
        return None
    numbers = [number(part, limit) for part, limit in zip(parts[2:], why)]
    worker = number(parts[0], SMALL)
    return None if worker is None or None in numbers else (b"fail", worker, parts[1], *numbers)


def first_wrong(graph, root, capacity, text):
    """The first line, from 1, such that the lines up to it are no journal, or None where the text is one."""
    reading, lines = Reading(graph, root, capacity), text.split(b"\n")
    for at, line in enumerate(lines[:-1], 1):
        if not reading.takes(line):
            return at
    # What follows the last newline is a line without its end. A text without lines has a wrong first one.
    return len(lines) if lines[-1] or len(lines) == 1 else None


def spelled(event):
    return b" ".join(part if isinstance(part, bytes) else b"%d" % part for part in event)


def answer(text, line):
    """What the program says of a text, by its first wrong line."""
    return b"run: %d lines\n" % text.count(b"\n") if line is None else b"not a run: line %d\n" % line
