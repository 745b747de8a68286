#!/usr/bin/env python3
"""Tells what a printed journal says: who made what, what came from the cache, and where workers waited.

    bench/journal_stats.py JOURNAL [--info FILE] [--window K]

JOURNAL is what `avsserve render SCRIPT --journal` printed on standard error, or - for standard input. With --info, what
`avsserve info SCRIPT` printed, filters have their names. --window K shows window K, counted from 0, as a picture: a column for
each worker, a line for each event. It doesn't check the journal: `avsserve replay` does.

A worker waits where what it wants is in the hands of another one. A journal shows this in three places: the worker hits a
frame that another one had claimed when this worker was last heard of; it enters an instance that was out with another one then;
or the others go on in a window after its last event. A journal has no times: so the first two are counted, and the last one is
told in events of the others.
"""

import argparse
import sys
from collections import Counter

COUNTS = {
    "workers": 1, "window": 2, "take": 2, "deliver": 2, "hit": 3, "claim": 3, "evict": 3, "publish": 3, "abandon": 3,
    "enter": 3, "leave": 3,
}
MOST_WORKERS = 16
# How many numbers follow why a worker failed.
WHY = {"memory": 0, "read": 1, "changed": 4}
# What a worker gets by an event, or gives back.
MARKS = {
    "enter": ("|", 1), "leave": ("|", -1), "claim": (":", 1), "publish": (":", -1), "abandon": (":", -1), "take": (".", 1),
    "deliver": (".", -1),
}


def read_line(line):
    """The word of a line, and what follows it: numbers, and why a worker failed."""
    word, *rest = line.split(" ")
    if word == "fail" and len(rest) > 1 and len(rest) == 2 + WHY.get(rest[1], len(rest)):
        return [word, int(rest[0]), rest[1], *map(int, rest[2:])]
    if len(rest) != COUNTS.get(word):
        raise ValueError
    return [word, *map(int, rest)]


def read_journal(lines):
    """The lines of a journal, read. The first one has the number of workers, and a window comes before the first event."""
    before = None
    for at, line in enumerate(lines, 1):
        try:
            found = read_line(line.rstrip("\n"))
            if (before is None) != (found[0] == "workers") or before == "workers" and found[0] != "window":
                raise ValueError
            if before is None and not 1 <= found[1] <= MOST_WORKERS:
                raise ValueError
        except ValueError:
            raise SystemExit(f"journal_stats: line {at} is not what a journal has there: {line[:60]!r}") from None
        before = found[0]
        yield found
    if before is None:
        raise SystemExit("journal_stats: the journal has no lines")


class Waits:
    """What workers waited for: frames, instances, and the end of windows in events of others."""

    def __init__(self, workers):
        self.workers, self.frames, self.instances, self.ends = workers, Counter(), Counter(), Counter()
        self.begin()

    def begin(self):
        """A window begins."""
        self.claimed, self.out, self.count = {}, {}, 0
        # When each worker was last heard of, and what was claimed and out then.
        self.last, self.seen = [0] * self.workers, [({}, {})] * self.workers

    def end(self):
        """The window ends: workers that were heard of before its last event waited."""
        for worker, last in enumerate(self.last):
            self.ends[worker] += self.count - last

    def event(self, word, worker, *rest):
        place, (claims, lent) = tuple(rest), self.seen[worker]
        if word == "hit":
            self.frames[worker] += claims.get(place, worker) != worker
        elif word == "claim":
            self.claimed[place] = worker
        elif word in ("publish", "abandon"):
            self.claimed.pop(place, None)
        elif word == "enter":
            self.instances[worker] += lent.get(place, worker) != worker
            self.out[place] = worker
        elif word == "leave":
            self.out.pop(place, None)
        self.count += 1
        self.last[worker], self.seen[worker] = self.count, (dict(self.claimed), dict(self.out))


class Stats:
    """What is counted of a journal."""

    def __init__(self, workers):
        self.workers, self.waits = workers, Waits(workers)
        self.frames, self.sizes, self.rare = 0, [], []
        # By worker and word, by node and word, and what each worker made, by node.
        self.by_worker, self.by_node, self.made = Counter(), Counter(), Counter()

    def window(self, count):
        self.waits.end()
        self.waits.begin()
        self.frames += count
        self.sizes.append(0)

    def event(self, word, worker, *rest):
        self.waits.event(word, worker, *rest)
        self.sizes[-1] += 1
        self.by_worker[worker, word] += 1
        if word in ("fail", "abandon"):
            self.rare.append(f"window {len(self.sizes) - 1}: {' '.join(map(str, (word, worker, *rest)))}")
        elif word not in ("take", "deliver"):
            self.by_node[rest[0], word] += 1
        if word == "publish":
            self.made[rest[0], worker] += 1


def counted(count, what):
    return f"{count:,} {what}{'' if count == 1 else 's'}"


def table(heads, rows):
    """Rows below their heads: words to the left, numbers to the right."""
    rows = [heads, *([f"{cell:,}" if isinstance(cell, int) else cell for cell in row] for row in rows)]
    widths = [max(map(len, column)) for column in zip(*rows)]
    lines = [[row[0].ljust(widths[0]), *(cell.rjust(width) for cell, width in zip(row[1:], widths[1:]))] for row in rows]
    return "\n".join("  ".join(line).rstrip() for line in lines)


def nodes_table(stats, names):
    """For each node the frames that were made, found and dropped, the uses of its instances, and who made how many."""
    rows = []
    for node in sorted({node for node, _ in stats.by_node} | set(names)):
        numbers = [stats.by_node[node, word] for word in ("publish", "hit", "evict", "enter")]
        numbers += [stats.made[node, worker] for worker in range(stats.workers)]
        rows.append([f"{node} {names.get(node, '')}".strip(), *numbers])
    heads = ["node", "made", "hit", "evicted", "entered", *(f"by {worker}" for worker in range(stats.workers))]
    return table(heads, [*rows, ["all", *(sum(row[at] for row in rows) for at in range(1, len(heads)))]])


def workers_table(stats):
    """For each worker what it did, and what it waited for."""
    heads = ["worker", "events", "outputs", "made", "hit", "waited for a frame", "for an instance", "events after its last"]
    rows = []
    for worker in range(stats.workers):
        events = sum(count for (by, _), count in stats.by_worker.items() if by == worker)
        done = [stats.by_worker[worker, word] for word in ("deliver", "publish", "hit")]
        waited = [waits[worker] for waits in (stats.waits.frames, stats.waits.instances, stats.waits.ends)]
        rows.append([str(worker), events, *done, *waited])
    return table(heads, rows)


def summary(journal, names):
    stats = Stats(next(journal)[1])
    for word, *rest in journal:
        if word == "window":
            stats.window(rest[1])
        elif rest[0] >= stats.workers:
            raise SystemExit(f"journal_stats: there is no worker {rest[0]}")
        else:
            stats.event(word, *rest)
    stats.waits.end()
    events = sum(stats.sizes)
    counts = ((stats.workers, "worker"), (len(stats.sizes), "window"), (stats.frames, "frame"), (events, "event"))
    print(", ".join(counted(*it) for it in counts))
    if not events:
        return
    made, hits = (sum(stats.by_worker[worker, word] for worker in range(stats.workers)) for word in ("publish", "hit"))
    if len(stats.sizes) > 1:
        print(f"a window has {min(stats.sizes):,} to {max(stats.sizes):,} events, a frame has {events / stats.frames:.1f}")
    print(f"frames of filters were wanted {made + hits:,} times: {hits:,} came from the cache, {made:,} were made")
    print("\n" + nodes_table(stats, names))
    print("\n" + workers_table(stats))
    if stats.rare:
        print("\n" + "\n".join(stats.rare[:20] + [f"and {len(stats.rare) - 20:,} more"] * (len(stats.rare) > 20)))


def window_events(journal, wanted):
    """What the first line of a window says, and its events."""
    windows, head, events = -1, None, []
    for word, *rest in journal:
        windows += word == "window"
        if windows > wanted:
            break
        if windows == wanted and word == "window":
            head = rest
        elif windows == wanted:
            events.append((word, *rest))
    if head is None:
        raise SystemExit("journal_stats: " + (f"the windows are 0 to {windows}" if windows >= 0 else "there is no window"))
    return head, events


def picture(workers, events):
    """A column for each worker and a line for each event."""
    shown = [f"{word} {' '.join(map(str, rest))}" for word, _, *rest in events]
    width = max(map(len, [*shown, "worker 15"])) + 2
    yield ("event  " + "".join(f"worker {worker}".ljust(width) for worker in range(workers))).rstrip()
    has = [Counter() for _ in range(workers)]
    for at, (word, worker, *_) in enumerate(events):
        cells = [next((mark for mark in "|:." if other[mark]), "") for other in has]
        cells[worker] = shown[at]
        yield f"{at:5}  " + "".join(cell.ljust(width) for cell in cells).rstrip()
        mark, step = MARKS.get(word, ("", 0))
        has[worker][mark] += step


def show(journal, wanted):
    workers = next(journal)[1]
    (first, count), events = window_events(journal, wanted)
    print(f"window {wanted}: {counted(count, 'frame')} from {first} on, {counted(len(events), 'event')}")
    print("| the worker has an instance   : it has claimed a frame   . it has taken an output\n")
    print("\n".join(picture(workers, events)))


def main():
    parser = argparse.ArgumentParser(description=__doc__, formatter_class=argparse.RawDescriptionHelpFormatter)
    parser.add_argument("journal", metavar="JOURNAL")
    parser.add_argument("--info", metavar="FILE")
    parser.add_argument("--window", type=int, metavar="K")
    options = parser.parse_args()
    if options.window is not None and options.window < 0:
        parser.error("windows are counted from 0")
    names = {}
    if options.info:
        with open(options.info, encoding="utf-8") as file:
            rows = [line.split() for line in file]
        names = {int(row[0]): row[1] for row in rows if len(row) > 1 and row[0].isdigit()}
    with open(0 if options.journal == "-" else options.journal, encoding="utf-8", errors="replace", newline="\n") as file:
        journal = read_journal(file)
        if options.window is None:
            summary(journal, names)
        else:
            show(journal, options.window)


if __name__ == "__main__":
    try:
        main()
    except BrokenPipeError:
        sys.stderr.close()
