"""Scripts at random whose graphs are known: for each call its node, with the frames that it asks of others.

The rules of the filters are written here a second time, as far as they say which frames are asked. Clips are Y8, and small.
"""

from fractions import Fraction

from machine import Graph, Node

# The modes that filters declare, where it isn't 1. None takes the default.
DECLARED = {"Y4MSource": 3, "TemporalSoften": 2, "Invert": None, "Limiter": None, "GeneralConvolution": None}
# What shows frame n by frame n of its clip.
ALIKE = [
    "FlipVertical", "FlipHorizontal", "Turn180", "Invert", "Limiter", "AssumeTFF", "AssumeBFF", "ComplementParity",
    "GeneralConvolution",
]
OFTEN = ["Reverse", "Trim", "Merge", "Interleave", "Weave", "Loop", "SeparateFields", "TemporalSoften", "BlankClip"]
RATE = Fraction(25)
# Large frames take so long that several workers come to them.
SIZES = [(4, 8), (64, 64), (320, 256)]
# No clip is longer or larger, or has greater numbers in its rate. The clip of a script has at most SHOWN frames.
LONGEST, LARGEST, FASTEST, SHOWN = 200, (64, 128, 640), 10**6, 40


def stream(dice, frames, size):
    width, height = size
    head = f"YUV4MPEG2 W{width} H{height} F25:1 Ip A1:1 Cmono\n".encode()
    return head + b"".join(b"FRAME\n" + dice.randbytes(width * height) for _ in range(frames))


def words(*numbers):
    return ", ".join(map(str, numbers))


def some(dice, c):
    """One to three frames of a clip."""
    return [dice.randrange(c.frames) for _ in range(dice.randint(1, 3))]


# Filters of one clip: what stands in their brackets, how many frames they have, and which numbers they ask at n; then, where
# they differ from the clip's, size and rate. None where the clip doesn't suit.


def trim(dice, c):
    first, count = dice.randrange(c.frames), dice.randint(1, c.frames)
    return words(first, -count), min(count, c.frames - first), lambda n: [first + n]


def freeze(dice, c):
    first, last, shown = *sorted(dice.randrange(c.frames) for _ in range(2)), dice.randrange(c.frames)
    return words(first, last, shown), c.frames, lambda n: [shown if first <= n <= last else n]


def every(dice, c):
    step, offsets = dice.randint(1, 4), some(dice, c)
    k, fit = len(offsets), [(c.frames - 1 - offset) // step for offset in offsets]
    frames = max(fit[i] * k + i + 1 for i in range(k))
    numbers = lambda n: [offsets[n % k] + min(n // k, fit[n % k]) * step]
    return words(step, *offsets), frames, numbers, c.size, c.rate * k / step


def loop(dice, c):
    times, (start, end) = dice.randint(0, 3), sorted(dice.randrange(c.frames) for _ in range(2))
    shown = [*range(start), *[*range(start, end + 1)] * times, *range(end + 1, c.frames)]
    return words(times, start, end), len(shown), lambda n: [shown[n]]


def duplicate(dice, c):
    chosen = some(dice, c)
    shown = sorted([*range(c.frames), *chosen])
    return words(*chosen), len(shown), lambda n: [shown[n]]


def delete(dice, c):
    chosen = some(dice, c)
    shown = [n for n in range(c.frames) if n not in chosen]
    return words(*chosen), len(shown), lambda n: [shown[n]]


def at_rate(dice, c):
    rate = Fraction(dice.choice([10, 24, 25, 30, 60]), dice.choice([1, 1, 2]))
    return words(rate.numerator, rate.denominator), -(-c.frames * rate // c.rate), lambda n: [n * c.rate // rate], c.size, rate


def soften(dice, c):
    radius = dice.choice([0, 1, 1, 2, 3])
    return words(radius, 9, 9), c.frames, lambda n: range(n - radius, n + radius + 1)


def separate(dice, c):
    width, height = c.size
    return ("", 2 * c.frames, lambda n: [n // 2], (width, height // 2), 2 * c.rate) if height % 2 == 0 else None


def weave(dice, c):
    width, height = c.size
    return "", c.frames // 2, lambda n: [2 * n, 2 * n + 1], (width, 2 * height), c.rate / 2


def swap(dice, c):
    return ("", c.frames, lambda n: [n]) if c.size[1] % 2 == 0 else None


ONE = {
    "Trim": trim, "FreezeFrame": freeze, "SelectEvery": every, "Loop": loop, "DuplicateFrame": duplicate, "DeleteFrame": delete,
    "ChangeFPS": at_rate, "TemporalSoften": soften, "SeparateFields": separate, "Weave": weave, "SwapFields": swap,
    "Reverse": lambda dice, c: ("", c.frames, lambda n: [c.frames - 1 - n]),
    "SelectEven": lambda dice, c: ("", (c.frames + 1) // 2, lambda n: [2 * n], c.size, c.rate / 2),
    "SelectOdd": lambda dice, c: ("", c.frames // 2, lambda n: [2 * n + 1], c.size, c.rate / 2),
    "AssumeFPS": lambda dice, c: ("30000, 1001", c.frames, lambda n: [n], c.size, Fraction(30000, 1001)),
}


# Filters of several clips of one size: how many frames they have, and the inputs with the numbers that they ask at n; then size
# and rate, as above.


def all_at(clips):
    return lambda n: [(i, n) for i in range(len(clips))]


def across(clips):
    width, height = clips[0].size
    return max(c.frames for c in clips), all_at(clips), (width * len(clips), height)


def down(clips):
    width, height = clips[0].size
    return max(c.frames for c in clips), all_at(clips), (width, height * len(clips))


def interleave(clips):
    k = len(clips)
    frames = max((c.frames - 1) * k + i + 1 for i, c in enumerate(clips))
    return frames, lambda n: [(n % k, n // k)], clips[0].size, clips[0].rate * k


def splice(clips):
    places = [(i, n) for i, c in enumerate(clips) for n in range(c.frames)]
    return len(places), lambda n: [places[n]]


def like_first(clips):
    return clips[0].frames, all_at(clips)


def like_second(clips):
    return clips[1].frames, all_at(clips), clips[1].size, clips[1].rate


# With how many clips, and the text of the call. A + stands for all clips, a * for the first, and a / for the others.
SEVERAL = {
    "StackHorizontal": (across, (2, 3), "StackHorizontal(+)"),
    "StackVertical": (down, (2, 3), "StackVertical(+)"),
    "Merge": (like_first, (2,), "Merge(+)"),
    "MergeLuma": (like_first, (2,), "*.MergeLuma(/)"),
    "Interleave": (interleave, (2, 3), "Interleave(+)"),
    "UnalignedSplice": (splice, (2, 3), "*.UnalignedSplice(/)"),
    "AlignedSplice": (splice, (2, 3), "AlignedSplice(+)"),
    "ConditionalSelect": (like_first, (2, 3, 4), 'ConditionalSelect(*, "current_frame % 3", /)'),
    "ConditionalFilter": (like_second, (3,), 'ConditionalFilter(+, "YPlaneMax", ">", "250 - current_frame")'),
}


class Script:
    """A script at random, with a call on each line."""

    def __init__(self, dice):
        self.dice, self.graph, self.lines, self.names, self.sources = dice, Graph(), [], [], []
        self.modes, self.default, self.crew = {}, 2, None
        kind = dice.randrange(len(SIZES))
        self.size, self.largest = SIZES[kind], LARGEST[kind]
        self.settings()
        for name in "abc"[: dice.randint(1, 3)]:
            self.source(f"{name}.y4m")
        for _ in range(dice.randint(1, 9)):
            dice.choice([self.of_one, self.of_one, self.alike, self.of_several, self.of_several, self.in_range])()
        if dice.random() < 0.2:
            self.blank()
        self.end()

    def settings(self):
        """Some modes are set, with force and without."""
        dice = self.dice
        for name in dice.sample([*OFTEN, *ALIKE], 6):
            mode, force = dice.randint(1, 3), dice.random() < 0.8
            self.lines.append(f'SetFilterMTMode("{name}", {mode}{", true" if force else ""})')
            if force or DECLARED.get(name, 1) is None:
                self.modes[name] = mode
        if dice.random() < 0.5:
            self.default = dice.randint(1, 3)
            self.lines.append(f'SetFilterMTMode("DEFAULT_MT_MODE", {self.default})')

    def node(self, name, inputs, frames, asks, size=None, rate=None):
        """One more node. Size and rate are those of its first input, where nothing else is said."""
        mode = self.modes.get(name, DECLARED.get(name, 1) or self.default)
        size, rate = size or self.graph[inputs[0]].size, rate or self.graph[inputs[0]].rate
        self.graph.append(Node(name, mode, inputs, frames, asks, size, rate))

    def named(self, call):
        """A line with a call. Its clip has the name of its node."""
        self.names.append(len(self.graph) - 1)
        self.lines.append(f"c{self.names[-1]} = {call}")

    def source(self, name):
        frames = self.dice.randint(1, 12)
        self.sources.append((name, frames))
        self.node("Y4MSource", [], frames, lambda n: [], self.size, RATE)
        self.named(f'Y4MSource("{name}")')

    def blank(self):
        self.node("BlankClip", [], 5, lambda n: [], self.size, RATE)
        self.named(f'BlankClip(5, {words(*self.size)}, "Y8", 25)')

    def chosen(self):
        """A clip that has a name, often the newest one."""
        return self.dice.choice([self.names[-1], self.dice.choice(self.names)])

    def of_one(self):
        at, name = self.chosen(), self.dice.choice(list(ONE))
        made = ONE[name](self.dice, self.graph[at])
        if made and self.suits(*made[1:]):
            said, frames, numbers, *rest = made
            self.node(name, [at], frames, lambda n: [(0, number) for number in numbers(n)], *rest)
            self.named(self.dice.choice([f"c{at}.{name}({said})", f"{name}(c{at}{', ' + said if said else ''})"]))

    def alike(self):
        at, name = self.chosen(), self.dice.choice(ALIKE)
        self.node(name, [at], self.graph[at].frames, lambda n: [(0, n)])
        self.named(f"c{at}.{name}")

    def of_several(self):
        dice, name = self.dice, self.dice.choice(list(SEVERAL))
        made, counts, text = SEVERAL[name]
        first = self.chosen()
        others = [i for i in self.names if self.graph[i].size == self.graph[first].size]
        inputs = [first, *(dice.choice(others) for _ in range(dice.choice(counts) - 1))]
        what = made([self.graph[i] for i in inputs])
        if self.suits(*what):
            self.node(name, inputs, *what)
            clips = [f"c{i}" for i in inputs]
            self.named(text.replace("+", words(*clips)).replace("*", clips[0]).replace("/", words(*clips[1:])))

    def in_range(self):
        """A filter on some of the frames is two nodes: that filter, and the choice."""
        at, name = self.chosen(), self.dice.choice(ALIKE)
        frames = self.graph[at].frames
        first, last = sorted(self.dice.randrange(frames) for _ in range(2))
        self.node(name, [at], frames, lambda n: [(0, n)])
        self.node("ApplyRange", [at, len(self.graph) - 1], frames, lambda n: [(1 if first <= n <= last else 0, n)])
        self.named(f'c{at}.ApplyRange({first}, {last}, "{name}")')

    def suits(self, frames, asks, size=(1, 1), rate=RATE):
        return 1 <= frames <= LONGEST and max(size) <= self.largest and max(rate.numerator, rate.denominator) <= FASTEST

    def end(self):
        """The clip of the script is one of those that have a name. It has a crew or none."""
        dice = self.dice
        self.root = dice.choice([self.names[-1], self.names[-1], dice.choice(self.names)])
        frames = self.graph[self.root].frames
        if frames > SHOWN:
            first = dice.randint(0, frames - SHOWN)
            self.node("Trim", [self.root], SHOWN, lambda n: [(0, first + n)])
            self.named(f"c{self.root}.Trim({first}, {-SHOWN})")
            self.root = self.names[-1]
        self.lines.append(f"c{self.root}")
        if dice.random() < 0.4:
            self.crew = (dice.randint(1, 16), dice.randint(1, 32))
            self.lines.append(f"Prefetch({self.crew[0]}, {self.crew[1]})")

    def text(self):
        return "\n".join(self.lines) + "\n"

    def info(self):
        """What `info` says of it."""
        root, (workers, window) = self.graph[self.root], self.crew or (1, 1)
        (width, height), rate = root.size, root.rate
        lines = [f"clip {width}x{height} Y8 {rate.numerator}:{rate.denominator} frames {root.frames}"]
        lines += [" ".join(map(str, [i, node.name, node.mode, *node.inputs])) for i, node in enumerate(self.graph)]
        return "\n".join([*lines, f"root {self.root}", f"prefetch {workers} {window}"]) + "\n"
