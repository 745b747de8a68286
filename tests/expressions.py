"""Expressions for each frame, and what both filters of choice at run time make of them, written a second time in plain Python.

Here stand the tokens and the grammar of an expression, numbers of 64 bits, what is counted of a plane, and the frames that the
filters show. tests/choice.py compares the program with it.
"""

import collections
import functools
import re

LEAST, GREATEST = -(1 << 63), (1 << 63) - 1
LONGEST = 4096
DEEPEST = 32
# How a frame is counted, by the second part of a name.
COUNTS = ("Min", "Max", "Median")
NAMES = {f"{letter}plane{count}".lower(): (plane, count) for plane, letter in enumerate("YUV") for count in COUNTS}
COMPARISONS = {"equals": "==", "==": "==", "greaterthan": ">", ">": ">", "lessthan": "<", "<": "<"}


class Bad(Exception):
    """A text is no expression."""


class NoValue(Exception):
    """A result is outside 64 bits, or a divisor is 0."""


# A line that ends the text, a line's end that is none, and numbers and names.
LAST_LINE = re.compile(r"[ \t\r]*__END__[ \t\r]*(\n|\Z)")
JOINED = re.compile(r"\\[ \t\r]*(\n|\Z)|\n[ \t\r]*\\")
WORD = re.compile(r"[0-9]+|\$[0-9A-Fa-f]+|[A-Za-z_][A-Za-z0-9_]*")


def after_comment(text, at):
    """Where a comment that isn't one of a line ends."""
    if text[at] == "/":
        end = text.find("*/", at + 2) + 2
        if end == 1:
            raise Bad
        return end
    open_ones = 0
    while at < len(text):
        two = text[at : at + 2]
        open_ones += (two == "[*") - (two == "*]")
        at += 2 if two in ("[*", "*]") else 1
        if not open_ones:
            return at
    raise Bad


def number_of(word):
    """A number as it is written."""
    if word[0] == "$":
        number = int(word[1:], 16)
        if len(word) > 17:
            raise Bad
        return number - (1 << 64) if number > GREATEST else number
    if int(word) > GREATEST:
        raise Bad
    return int(word)


def tokens(text):
    """Numbers, names in small letters, ends of lines outside parentheses, and the signs that an expression may have."""
    text = text.removeprefix("\ufeff")
    found, at, open_ones = [], 0, 0
    while at < len(text):
        if (at == 0 or text[at - 1] == "\n") and LAST_LINE.match(text, at):
            break
        joined, word = JOINED.match(text, at), WORD.match(text, at)
        if joined:
            at = joined.end()
        elif text[at] == "#":
            at = text.find("\n", at) if "\n" in text[at:] else len(text)
        elif text[at : at + 2] in ("/*", "[*"):
            at = after_comment(text, at)
        elif word:
            at = word.end()
            found.append(number_of(word[0]) if word[0][0] in "$0123456789" else word[0].lower())
        elif text[at] in " \t\r" or (text[at] == "\n" and open_ones):
            at += 1
        elif text[at] in "\n()+-*/%," and text[at : at + 2] != "++":
            open_ones = max(open_ones + (text[at] == "(") - (text[at] == ")"), 0)
            found.append(text[at])
            at += 1
        else:
            raise Bad
    return found


def deeper(depth):
    if depth == DEEPEST:
        raise Bad
    return depth + 1


class Reader:
    """Reads a list of tokens. A tree is a number, a name, or a list whose first part says what it is."""

    def __init__(self, found, chroma):
        self.found, self.chroma, self.at = [*found, None], chroma, 0

    @property
    def next(self):
        return self.found[self.at]

    def take(self, *wanted):
        token = self.next
        if token is None or (wanted and token not in wanted):
            raise Bad
        self.at += 1
        return token

    def skip_lines(self):
        while self.next == "\n":
            self.at += 1

    def whole(self):
        self.skip_lines()
        tree = self.sum(0)
        self.skip_lines()
        if self.next is not None:
            raise Bad
        return tree

    def chain(self, part, signs, depth):
        """The operators of one level, from the left."""
        tree = ["chain", part(depth)]
        while self.next in signs:
            tree.append((self.take(), part(depth)))
        return tree

    def sum(self, depth):
        return self.chain(self.product, ("+", "-"), depth)

    def product(self, depth):
        return self.chain(self.signed, ("*", "/", "%"), depth)

    def signed(self, depth):
        if self.next == "-":
            self.take()
            return ["minus", self.signed(deeper(depth))]
        return self.primary(depth)

    def primary(self, depth):
        token = self.take()
        if isinstance(token, int):
            return token
        if token == "(":
            tree = self.sum(deeper(depth))
            self.take(")")
            return tree
        if token in ("abs", "min", "max"):
            self.take("(")
            parts = [self.sum(deeper(depth))]
            while self.take(",", ")") == ",":
                parts.append(self.sum(depth + 1))
            if (len(parts) == 1) != (token == "abs"):
                raise Bad
            return [token, *parts]
        if token != "current_frame" and (token not in NAMES or (NAMES[token][0] and not self.chroma)):
            raise Bad
        if self.next == "(":
            self.take()
            deeper(depth)
            self.take(")")
        return token


@functools.cache
def read(text, chroma=True):
    """The tree of an expression, for clips with chroma or for those of luma alone, or None where the text is none."""
    try:
        return Reader(tokens(text), chroma).whole() if len(text.encode()) <= LONGEST else None
    except Bad:
        return None


def counted(plane, count):
    samples = [x for row in plane for x in row]
    if count != "Median":
        return min(samples) if count == "Min" else max(samples)
    numbers, so_far = collections.Counter(samples), 0
    for sample in sorted(numbers):
        so_far += numbers[sample]
        if 2 * so_far >= len(samples):
            return sample
    raise AssertionError


def in_range(number):
    if not LEAST <= number <= GREATEST:
        raise NoValue
    return number


def applied(sign, a, b):
    if sign in "+-*":
        return in_range(a + b if sign == "+" else a - b if sign == "-" else a * b)
    if b == 0:
        raise NoValue
    quotient = abs(a) // abs(b) * (1 if (a < 0) == (b < 0) else -1)
    return in_range(quotient) if sign == "/" else a - b * quotient


def worth(tree, n, frame):
    if isinstance(tree, int):
        return tree
    if isinstance(tree, str):
        return n if tree == "current_frame" else counted(frame[NAMES[tree][0]], NAMES[tree][1])
    kind, first, *rest = tree
    number = worth(first, n, frame)
    if kind == "chain":
        for sign, part in rest:
            number = applied(sign, number, worth(part, n, frame))
        return number
    if kind in ("minus", "abs"):
        return in_range(-number if kind == "minus" else abs(number))
    return (min if kind == "min" else max)(number, *(worth(part, n, frame) for part in rest))


def value(tree, n, frame):
    """The number of an expression at frame n, over this frame of the test, or None."""
    try:
        return worth(tree, n, frame)
    except NoValue:
        return None


def values(test, text, length):
    tree = read(text, test.kind != "Y8")
    return [value(tree, n, test.at(n)) for n in range(length)]


def selected(test, text, *sources):
    found = values(test, text, len(test.frames))
    frames = [sources[v].at(n) if v is not None and 0 <= v < len(sources) else test.frames[n] for n, v in enumerate(found)]
    return test.also(frames=frames)


def holds(left, compare, right):
    if left is None or right is None:
        return False
    sign = COMPARISONS[compare.lower()]
    return left == right if sign == "==" else left > right if sign == ">" else left < right


def filtered(test, a, b, left, compare, right):
    pairs = zip(values(test, left, len(a.frames)), values(test, right, len(a.frames)))
    return a.also(frames=[a.frames[n] if holds(x, compare, y) else b.at(n) for n, (x, y) in enumerate(pairs)])
