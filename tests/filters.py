#!/usr/bin/env python3
"""Renders every filter over pictures at random in each format, and compares each stream with a second reading of the rules.

The rules are written here a second time, in plain Python, sample by sample. Sizes are odd in the chroma planes, down to one
column and one row. Samples have 8 bits, and in a second pass 10 to 16. Each refusal of a filter is asked for too, and its line
is compared.

The program is built first, unless the environment names one as AVSSERVE.
"""

import os
import random
import struct
import subprocess
import sys
import tempfile
from fractions import Fraction

ROOT = os.path.dirname(os.path.dirname(os.path.abspath(__file__)))
PROGRAM = os.environ.get("AVSSERVE", os.path.join(ROOT, "bin", "avsserve"))
# name in scripts: name in streams, subsampling across and down (none: luma alone). Above 8 bits the bits follow a `p`, or `mono`.
FORMATS = {
    "Y8": ("mono", None),
    "YV12": ("420jpeg", (2, 2)),
    "YV16": ("422", (2, 1)),
    "YV24": ("444", (1, 1)),
    "YV411": ("411", (4, 1)),
}
SIZES = {
    "Y8": [(1, 1), (7, 1), (1, 5), (5, 3)],
    "YV12": [(2, 2), (6, 4), (2, 6)],
    "YV16": [(2, 1), (6, 3)],
    "YV24": [(1, 1), (5, 3)],
    "YV411": [(4, 1), (12, 3)],
}
# Wider than the blocks in which samples are moved, and no multiple of them.
BLOCKS = [("Y8", 131, 70), ("Y8", 16, 33), ("Y8", 80, 16), ("YV12", 160, 98), ("YV16", 96, 40), ("YV24", 65, 17), ("YV411", 128, 20)]
# Formats and sizes of more than 8 bits, as many as go through each filter in a few seconds.
DEEP = [("Y8", 10, 7, 5), ("YV12", 10, 6, 4), ("YV16", 12, 6, 3), ("YV24", 14, 5, 3), ("Y8", 16, 5, 3), ("YV12", 16, 2, 6)]
DEEP_BLOCKS = [("Y8", 10, 131, 70), ("YV12", 12, 160, 98), ("YV24", 16, 65, 17)]
# Frames of two fields, and some that are none: an odd row is left in a plane.
FIELDS = [("Y8", 8, 1, 2), ("Y8", 8, 5, 6), ("Y8", 8, 5, 3), ("Y8", 16, 5, 6), ("YV12", 8, 2, 4), ("YV12", 8, 6, 12), ("YV12", 8, 6, 6)]
FIELDS += [("YV12", 10, 6, 8), ("YV16", 8, 6, 4), ("YV16", 12, 2, 2), ("YV24", 8, 5, 6), ("YV24", 14, 5, 3), ("YV411", 8, 12, 6)]
FIELDS += [("Y8", 8, 131, 70), ("YV12", 8, 160, 100)]
BLACK = 0x108080


def row_bytes(row, bits):
    """A byte a sample, or two, the low one first."""
    return bytes(row) if bits == 8 else struct.pack(f"<{len(row)}H", *row)


class Clip:
    """Frames are lists of planes, planes are lists of rows, rows are lists of samples."""

    def __init__(self, kind, width, height, frames, rate=Fraction(25), bits=8, field="p"):
        self.kind, self.width, self.height, self.frames, self.rate, self.bits = kind, width, height, frames, rate, bits
        self.field = field

    def also(self, **changes):
        made = Clip(self.kind, self.width, self.height, self.frames, self.rate, self.bits, self.field)
        made.__dict__.update(changes)
        return made

    def of(self, picture, **changes):
        """Each frame becomes another one."""
        return self.also(frames=[picture(frame) for frame in self.frames], **changes)

    def shown(self, numbers, **changes):
        return self.also(frames=[self.frames[n] for n in numbers], **changes)

    def at(self, n):
        return self.frames[min(n, len(self.frames) - 1)]

    @property
    def scale(self):
        """What a value of 8 bits is multiplied by."""
        return 1 << self.bits - 8

    @property
    def largest(self):
        return (1 << self.bits) - 1

    def stream(self):
        name = FORMATS[self.kind][0]
        if self.bits > 8:
            name = f"mono{self.bits}" if self.kind == "Y8" else f"{name[:3]}p{self.bits}"
        rate = f"{self.rate.numerator}:{self.rate.denominator}"
        head = f"YUV4MPEG2 W{self.width} H{self.height} F{rate} I{self.field} A1:1 C{name}\n"
        parts = [head.encode()]
        for frame in self.frames:
            parts.append(b"FRAME\n")
            parts += [row_bytes(row, self.bits) for plane in frame for row in plane]
        return b"".join(parts)


def planes_of(kind, width, height):
    """The sizes of the planes."""
    chroma = FORMATS[kind][1]
    return [(width, height)] + ([(width // chroma[0], height // chroma[1])] * 2 if chroma else [])


def at_random(dice, kind, width, height, count, bits=8):
    frames = [
        [[[dice.randrange(1 << bits) for _ in range(w)] for _ in range(h)] for w, h in planes_of(kind, width, height)]
        for _ in range(count)
    ]
    return Clip(kind, width, height, frames, bits=bits)


def parts(clip, colour):
    return [(colour >> shift & 255) * clip.scale for shift in (16, 8, 0)]


def steps(clip, p):
    """How many columns and rows of the picture a sample of plane p has."""
    return (1, 1) if p == 0 else FORMATS[clip.kind][1]


def cut(clip, left, top, width, height):
    def picture(frame):
        made = []
        for p, plane in enumerate(frame):
            a, d = steps(clip, p)
            made.append([row[left // a : (left + width) // a] for row in plane[top // d : (top + height) // d]])
        return made

    return clip.of(picture, width=width, height=height)


def bordered(clip, left, top, right, bottom, colour):
    def picture(frame):
        made = []
        for p, plane in enumerate(frame):
            a, d = steps(clip, p)
            c = parts(clip, colour)[p]
            wide = (left + clip.width + right) // a
            made.append(
                [[c] * wide] * (top // d)
                + [[c] * (left // a) + row + [c] * (right // a) for row in plane]
                + [[c] * wide] * (bottom // d)
            )
        return made

    return clip.of(picture, width=left + clip.width + right, height=top + clip.height + bottom)


def boxed(clip, top, bottom, x1, x2, colour):
    inner = cut(clip, x1, top, clip.width - x1 - x2, clip.height - top - bottom)
    return bordered(inner, x1, top, x2, bottom, colour)


def each(change):
    """Each plane becomes another one."""
    return lambda frame: [change(p, plane) for p, plane in enumerate(frame)]


def turned_left(plane):
    return [[plane[y][x] for y in range(len(plane))] for x in reversed(range(len(plane[0])))]


def turned_right(plane):
    return [[plane[y][x] for y in reversed(range(len(plane)))] for x in range(len(plane[0]))]


def limited(clip, low, high, chroma_low, chroma_high):
    def change(p, plane):
        a, b = (low, high) if p == 0 else (chroma_low, chroma_high)
        return [[min(max(x, a * clip.scale), b * clip.scale) for x in row] for row in plane]

    return clip.of(each(change))


def inverted(clip, letters):
    def change(p, plane):
        return [[clip.largest - x for x in row] for row in plane] if "YUV"[p] in letters else plane

    return clip.of(each(change))


def every(clip, step, offsets):
    k = len(offsets)
    lengths = [(len(clip.frames) - 1 - o) // step + 1 for o in offsets]
    length = max((n - 1) * k + i + 1 for i, n in enumerate(lengths))
    numbers = [offsets[n % k] + min(n // k, lengths[n % k] - 1) * step for n in range(length)]
    return clip.shown(numbers, rate=clip.rate * k / step)


def interleaved(*clips):
    k = len(clips)
    length = max((len(c.frames) - 1) * k + i + 1 for i, c in enumerate(clips))
    return clips[0].also(frames=[clips[n % k].at(n // k) for n in range(length)], rate=clips[0].rate * k)


def looped(clip, times, start, end):
    numbers = list(range(len(clip.frames)))
    return clip.shown(numbers[:start] + numbers[start : end + 1] * times + numbers[end + 1 :])


def at_rate(clip, num, den):
    rate = Fraction(num, den)
    ratio = clip.rate / rate
    length = -(-len(clip.frames) * ratio.denominator // ratio.numerator)
    return clip.shown([n * ratio.numerator // ratio.denominator for n in range(length)], rate=rate)


def stacked(across, *clips):
    def joined(planes):
        return [sum(rows, []) for rows in zip(*planes)] if across else sum(planes, [])

    length = max(len(c.frames) for c in clips)
    frames = [[joined(planes) for planes in zip(*(c.at(n) for c in clips))] for n in range(length)]
    width = sum(c.width for c in clips) if across else clips[0].width
    height = clips[0].height if across else sum(c.height for c in clips)
    return clips[0].also(frames=frames, width=width, height=height)


def merged(a, b, pick):
    return a.also(frames=[pick(frame, b.at(n)) for n, frame in enumerate(a.frames)])


def average(one, other):
    return [[[(x + y + 1) // 2 for x, y in zip(*rows)] for rows in zip(*planes)] for planes in zip(one, other)]


def softened(clip, radius, luma, chroma):
    def picture(n):
        near = [clip.at(max(n + k, 0)) for k in range(-radius, radius + 1)]
        made = []
        for p, plane in enumerate(clip.frames[n]):
            most = (luma if p == 0 else chroma) * clip.scale

            def mean(x, y, p=p, most=most):
                middle = clip.frames[n][p][y][x]
                samples = [frame[p][y][x] for frame in near]
                total = sum(q if abs(q - middle) <= most else middle for q in samples)
                return (total + radius) // (2 * radius + 1) if most else middle

            made.append([[mean(x, y) for x in range(len(plane[0]))] for y in range(len(plane))])
        return made

    return clip.also(frames=[picture(n) for n in range(len(clip.frames))])


def convolved(clip, bias, matrix):
    side = 3 if len(matrix) == 9 else 5
    half, divisor = side // 2, sum(matrix) or 1

    def change(p, plane):
        h, w = len(plane), len(plane[0])

        def sample(x, y):
            total = sum(
                weight * plane[min(max(y + k // side - half, 0), h - 1)][min(max(x + k % side - half, 0), w - 1)]
                for k, weight in enumerate(matrix)
            )
            quotient = abs(total) // abs(divisor)
            if (total < 0) != (divisor < 0):
                quotient = -quotient
            return min(max(quotient + bias * clip.scale, 0), clip.largest)

        return [[sample(x, y) for x in range(w)] for y in range(h)]

    return clip.of(each(change))


def top_comes_first(clip):
    """Everywhere but in a clip whose bottom field is said to come first."""
    return clip.field != "b"


def has_fields(clip):
    """Whether each plane has as many even rows as odd ones."""
    return clip.height % (2 * (FORMATS[clip.kind][1] or (1, 1))[1]) == 0


def separated(clip):
    first, second = (0, 1) if top_comes_first(clip) else (1, 0)
    frames = [[plane[start::2] for plane in frame] for frame in clip.frames for start in (first, second)]
    return clip.also(frames=frames, height=clip.height // 2, rate=clip.rate * 2)


def woven(clip):
    frames = []
    for first, second in zip(clip.frames[::2], clip.frames[1::2]):
        top, bottom = (first, second) if top_comes_first(clip) else (second, first)
        frames.append([[row for two in zip(*planes) for row in two] for planes in zip(top, bottom)])
    return clip.also(frames=frames, height=clip.height * 2, rate=clip.rate / 2)


def swapped(clip):
    def change(p, plane):
        return [row for y in range(0, len(plane), 2) for row in (plane[y + 1], plane[y])]

    return clip.of(each(change))


def ranged(clip, other, first, last):
    return clip.also(frames=[other.at(n) if first <= n <= last else frame for n, frame in enumerate(clip.frames)])


BLUR = [1, 2, 1, 2, 4, 2, 1, 2, 1]
EDGES = [0, -1, 0, -1, 4, -1, 0, -1, 0]
DARK = [0, -3, 0, 0, -5, 0, 0, 2, 1]
WIDE = [k * (-1) ** k % 1025 - 300 for k in range(25)]


def soft_rows(dice, c):
    yield "c.TemporalSoften(0, 255, 255)", c
    yield "c.TemporalSoften(1, 255, 255)", softened(c, 1, 255, 255)
    yield "c.TemporalSoften(1, 100, 0)", softened(c, 1, 100, 0)
    yield "c.TemporalSoften(2, 60, 90)", softened(c, 2, 60, 90)
    yield "c.TemporalSoften(3, 0, 128)", softened(c, 3, 0, 128)
    yield "c.TemporalSoften(7, 200, 1)", softened(c, 7, 200, 1)
    yield "c.GeneralConvolution", c
    yield "c.GeneralConvolution(7)", convolved(c, 7, [0, 0, 0, 0, 1, 0, 0, 0, 0])
    for bias, matrix in ((0, BLUR), (128, EDGES), (-20, BLUR), (255, DARK), (3, WIDE)):
        words = " ".join(map(str, matrix))
        yield f'c.GeneralConvolution({bias}, "{words}")', convolved(c, bias, matrix)
    for _ in range(2):
        matrix = [dice.randrange(-1024, 1025) for _ in range(dice.choice((9, 25)))]
        words = "\t".join(map(str, matrix))
        yield f'c.GeneralConvolution(matrix="{words}")', convolved(c, 0, matrix)


def range_rows(c, d):
    yield 'c.ApplyRange(1, 2, "FlipVertical")', ranged(c, c.of(each(lambda p, plane: plane[::-1])), 1, 2)
    yield 'c.ApplyRange(0, 4, "Invert", "Y")', inverted(c, "Y")
    yield 'c.ApplyRange(3, 3, "Limiter", 100, 120)', ranged(c, limited(c, 100, 120, 16, 240), 3, 3)
    yield 'c.ApplyRange(2, 4, "Trim", 0, -3)', ranged(c, c.shown([0, 1, 2]), 2, 4)
    turned = ranged(c, c.of(each(lambda p, plane: [row[::-1] for row in plane])), 1, 1)
    yield 'c.ApplyRange(0, 2, "ApplyRange", 1, 1, "FlipHorizontal")', ranged(c, turned, 0, 2)
    yield 'last = c\nApplyRange(2, 3, "Merge", d)', ranged(c, merged(c, d, average), 2, 3)


def time_rows(c, d):
    """Calls on c and d, which agree, with the clip that each gives."""
    n = len(c.frames)
    yield "c.Trim(1, 0)", c.shown(range(1, n))
    yield "c.Trim(1, 2)", c.shown([1, 2])
    yield "c.Trim(1, -2)", c.shown([1, 2])
    yield "c.Trim(0, length=3)", c.shown([0, 1, 2])
    yield "c.Trim(2, end=9)", c.shown(range(2, n))
    yield "c.Reverse", c.shown(reversed(range(n)))
    yield "c.FreezeFrame(1, 2, 3)", c.shown([0, 3, 3, 3, 4])
    yield "c.SelectEven", c.shown([0, 2, 4], rate=c.rate / 2)
    yield "c.SelectOdd", c.shown([1, 3], rate=c.rate / 2)
    yield "c.SelectEvery(3, 0, 2, 1)", every(c, 3, [0, 2, 1])
    yield "c.SelectEvery(1, 4)", every(c, 1, [4])
    yield "Interleave(c, d)", interleaved(c, d)
    yield "Interleave(d, c, d)", interleaved(d, c, d)
    yield "UnalignedSplice(c, d)", c.also(frames=c.frames + d.frames)
    yield "AlignedSplice(c, d, c)", c.also(frames=c.frames + d.frames + c.frames)
    yield "c + d", c.also(frames=c.frames + d.frames)
    yield "d ++ c", c.also(frames=d.frames + c.frames)
    yield "c.Loop(3)", looped(c, 3, 0, n - 1)
    yield "c.Loop(2, 1)", looped(c, 2, 1, n - 1)
    yield "c.Loop(3, 1, 2)", looped(c, 3, 1, 2)
    yield "c.Loop(0, end=1)", looped(c, 0, 0, 1)
    yield "c.DuplicateFrame(4, 1, 4)", c.shown([0, 1, 1, 2, 3, 4, 4, 4])
    yield "c.DeleteFrame(3, 0, 3)", c.shown([1, 2, 4])
    yield "c.AssumeFPS(30)", c.also(rate=Fraction(30))
    yield "c.AssumeFPS(30000, 1001)", c.also(rate=Fraction(30000, 1001))
    yield "c.ChangeFPS(60)", at_rate(c, 60, 1)
    yield "c.ChangeFPS(20, 3)", at_rate(c, 20, 3)


def space_rows(c):
    w, h, kind = c.width, c.height, c.kind
    a, d = FORMATS[kind][1] or (1, 1)
    across, down = (a if w > a else 0), (d if h > d else 0)
    yield f"c.Crop({across}, {down}, 0, 0)", cut(c, across, down, w - across, h - down)
    yield f"c.Crop(0, {down}, {-across}, {h - down}, align=true)", cut(c, 0, down, w - across, h - down)
    yield f"c.CropBottom({down})", cut(c, 0, 0, w, h - down)
    yield f"c.AddBorders({a}, {2 * d}, {3 * a}, {d})", bordered(c, a, 2 * d, 3 * a, d, BLACK)
    yield f"c.AddBorders(0, {d}, {a}, 0, $0A14FF)", bordered(c, 0, d, a, 0, 0x0A14FF)
    yield f"c.LetterBox({down}, 0)", boxed(c, down, 0, 0, 0, BLACK)
    yield f"c.LetterBox(0, {down}, {across}, 0, $FF0102)", boxed(c, 0, down, across, 0, 0xFF0102)
    yield f"c.LetterBox({h}, 0)", boxed(c, h, 0, 0, 0, BLACK)
    yield "c.FlipHorizontal", c.of(each(lambda p, plane: [row[::-1] for row in plane]))
    yield "c.FlipVertical", c.of(each(lambda p, plane: plane[::-1]))
    yield "c.Turn180", c.of(each(lambda p, plane: [row[::-1] for row in plane[::-1]]))
    if kind not in ("YV16", "YV411"):
        yield "c.TurnLeft", c.of(each(lambda p, plane: turned_left(plane)), width=h, height=w)
        yield "c.TurnRight", c.of(each(lambda p, plane: turned_right(plane)), width=h, height=w)
    grey = c.of(each(lambda p, plane: plane if p == 0 else [[128 * c.scale] * len(row) for row in plane]))
    yield "c.Greyscale", grey
    yield "c.Grayscale", grey
    yield "c.Invert", inverted(c, "YUV")
    yield 'c.Invert("uu")', inverted(c, "U")
    yield 'c.Invert(channels="vY")', inverted(c, "YV")
    yield 'c.Invert("")', c
    yield "c.Limiter", limited(c, 16, 235, 16, 240)
    yield "c.Limiter(100, 120, max_chroma=200)", limited(c, 100, 120, 16, 200)
    yield "c.SwapUV", c.of(lambda frame: frame[:1] + frame[1:][::-1])
    if c.bits == 8:
        yield "c.ConvertToY8", c.of(lambda frame: frame[:1], kind="Y8")
    if kind != "Y8" and c.bits == 8:
        small = dict(kind="Y8", width=w // a, height=h // d)
        yield "c.UToY8", c.of(lambda frame: frame[1:2], **small)
        yield "c.VToY8", c.of(lambda frame: frame[2:], **small)


def converted(clip, bits):
    def sample(x):
        if bits >= clip.bits:
            return x << bits - clip.bits
        lost = clip.bits - bits
        return min((x + (1 << lost - 1)) >> lost, (1 << bits) - 1)

    return clip.of(each(lambda p, plane: [[sample(x) for x in row] for row in plane]), bits=bits)


def field_rows(c):
    other = {"t": "b", "b": "t"}
    yield "c.AssumeTFF", c.also(field="t")
    yield "c.AssumeBFF", c.also(field="b")
    yield "c.ComplementParity", c.also(field=other.get(c.field, c.field))
    yield "c.AssumeTFF.ComplementParity", c.also(field="b")
    yield "c.AssumeBFF.ComplementParity", c.also(field="t")
    for call, clip in (("c", c), ("c.AssumeTFF", c.also(field="t")), ("c.AssumeBFF", c.also(field="b"))):
        yield f"{call}.Weave", woven(clip)
        yield f"{call}.Weave.SeparateFields", separated(woven(clip))
        if has_fields(clip):
            yield f"{call}.SeparateFields", separated(clip)
            yield f"{call}.SeparateFields.Weave", clip
            yield f"{call}.SeparateFields.ComplementParity.Weave", woven(separated(clip).also(field=other.get(clip.field, clip.field)))
            yield f"{call}.SeparateFields.SelectOdd", separated(clip).shown(range(1, 2 * len(clip.frames), 2), rate=clip.rate)
            yield f"{call}.SwapFields", swapped(clip)
            yield f"{call}.SwapFields.SwapFields", clip
            yield f"{call}.FlipVertical.SeparateFields", separated(clip.of(each(lambda p, plane: plane[::-1])))
            yield f"{call}.Weave.SwapFields.SeparateFields", separated(swapped(woven(clip)))
            yield f'{call}.ApplyRange(1, 1, "SwapFields")', ranged(clip, swapped(clip), 1, 1)


def depth_rows(c):
    for bits in (8, 10, 12, 14, 16) if c.kind != "YV411" else (8,):
        yield f"c.ConvertBits({bits})", converted(c, bits)
    if c.kind != "YV411":
        yield "c.ConvertBits(16).ConvertBits(10)", converted(converted(c, 16), 10)
        yield "c.ConvertBits(12).Invert.ConvertBits(8)", converted(inverted(converted(c, 12), "YUV"), 8)


def join_rows(c, d):
    yield "StackHorizontal(c, d)", stacked(True, c, d)
    yield "StackHorizontal(d, c, d)", stacked(True, d, c, d)
    yield "StackVertical(c, d)", stacked(False, c, d)
    yield "StackVertical(d, d, c)", stacked(False, d, d, c)
    yield "Merge(c, d)", merged(c, d, average)
    yield "Merge(d, c)", merged(d, c, average)
    yield "MergeLuma(c, d)", merged(c, d, lambda one, other: other[:1] + one[1:])
    yield "MergeChroma(c, d)", merged(c, d, lambda one, other: one[:1] + other[1:])


def plane_rows(dice):
    """YToUV, with each format that it gives."""
    for kind, bits in (("YV24", 8), ("YV16", 8), ("YV12", 8), ("YV411", 8), ("YV24", 10), ("YV16", 16), ("YV12", 12)):
        a, d = FORMATS[kind][1]
        u, v = at_random(dice, "Y8", 3, 2, 2, bits), at_random(dice, "Y8", 3, 2, 3, bits)
        y = at_random(dice, "Y8", 3 * a, 2 * d, 4, bits)
        frames = [[y.at(n)[0], u.at(n)[0], v.at(n)[0]] for n in range(2)]
        yield (u, v, y), Clip(kind, 3 * a, 2 * d, frames, bits=bits)


# Calls on c, of 6x4 and five frames in YV12, d, of the same in YV24, e, of 8x4 in YV12, and g, of luma alone and one frame; h is
# as c and i as g, of 10 bits.
REFUSALS = [
    ("c.Trim(5, 0)", "BadRange"),
    ("c.Trim(-1, 0)", "BadRange"),
    ("c.Trim(3, 2)", "BadRange"),
    ("c.Trim(0, length=-1)", "BadRange"),
    ("c.Trim(0, length=0)", "EmptyClip"),
    ("c.Trim(3, end=2)", "BadRange"),
    ("c.Trim(1)", "NoMatch"),
    ("c.Trim(1, 2, 3)", "NoMatch"),
    ("c.FreezeFrame(2, 1, 0)", "BadRange"),
    ("c.FreezeFrame(-1, 1, 0)", "BadRange"),
    ("c.FreezeFrame(0, 1, 5)", "BadRange"),
    ("g.SelectOdd", "EmptyClip"),
    ("g.SeparateFields", "NotWholeChroma"),
    ("c.CropBottom(2).SeparateFields", "NotWholeChroma"),
    ("c.SeparateFields.SeparateFields", "NotWholeChroma"),
    ("c.Loop(100001).SeparateFields", "LengthLimit"),
    ("c.AssumeFPS(2147483647).SeparateFields", "RateLimit"),
    ("c.SeparateFields(1)", "NoMatch"),
    ("g.SwapFields", "NotWholeChroma"),
    ("c.CropBottom(2).SwapFields", "NotWholeChroma"),
    ("c.SwapFields(1)", "NoMatch"),
    ("g.Weave", "EmptyClip"),
    ("c.AssumeFPS(1, 2147483647).Weave", "RateLimit"),
    ('BlankClip(width=1, height=32768, pixel_type="Y8").Weave', "TooLarge"),
    ('BlankClip(width=4096, height=4096, pixel_type="Y8").Weave', "TooLarge"),
    ("Weave(c, c)", "NoMatch"),
    ("c.AssumeTFF(1)", "NoMatch"),
    ("c.AssumeBFF(true)", "NoMatch"),
    ("c.ComplementParity(c)", "NoMatch"),
    ('c.ApplyRange(0, 1, "SeparateFields")', "SizeDiffers"),
    ('c.ApplyRange(0, 1, "Weave")', "SizeDiffers"),
    ("c.SelectEvery(0, 1)", "BadRange"),
    ("c.SelectEvery(2, -1)", "BadRange"),
    ("c.SelectEvery(2, 5)", "EmptyClip"),
    ("c.SelectEvery(2)", "NoMatch"),
    ("Interleave(c)", "NoMatch"),
    ("Interleave(c, d)", "FormatDiffers"),
    ("Interleave(c, e)", "SizeDiffers"),
    ("Interleave(c, e, d)", "FormatDiffers"),
    ("UnalignedSplice(c, d)", "FormatDiffers"),
    ("UnalignedSplice(c, e)", "SizeDiffers"),
    ("AlignedSplice(c, d)", "FormatDiffers"),
    ("AlignedSplice(c, e)", "SizeDiffers"),
    ("c.Loop(-1)", "BadRange"),
    ("c.Loop(1, 3, 2)", "BadRange"),
    ("c.Loop(1, 0, 5)", "BadRange"),
    ("c.Loop(0)", "EmptyClip"),
    ("c.Loop(1000000)", "LengthLimit"),
    ("c.DuplicateFrame(5)", "BadRange"),
    ("c.DuplicateFrame", "NoMatch"),
    ("c.DeleteFrame(-1)", "BadRange"),
    ("c.DeleteFrame(0, 1, 2, 3, 4)", "EmptyClip"),
    ("c.AssumeFPS(0)", "BadRange"),
    ("c.AssumeFPS(1, 0)", "BadRange"),
    ("c.AssumeFPS(2147483647).SelectEvery(1, 0, 0, 0)", "RateLimit"),
    ("c.ChangeFPS(0)", "BadRange"),
    ("c.ChangeFPS(1, 0)", "BadRange"),
    ("c.ChangeFPS(2147483647)", "LengthLimit"),
    ("c.Crop(-2, 0, 2, 2)", "BadRange"),
    ("c.Crop(0, -2, 2, 2)", "BadRange"),
    ("c.Crop(0, 0, 8, 2)", "OutOfPicture"),
    ("c.Crop(0, 0, 2, 6)", "OutOfPicture"),
    ("c.Crop(6, 0, 0, 0)", "OutOfPicture"),
    ("c.Crop(1, 0, 2, 2)", "NotWholeChroma"),
    ("c.CropBottom(-1)", "BadRange"),
    ("c.CropBottom(4)", "OutOfPicture"),
    ("c.CropBottom(1)", "NotWholeChroma"),
    ("c.AddBorders(-1, 0, 0, 0)", "BadRange"),
    ("c.AddBorders(0, 0, 0, 0, $1000000)", "BadRange"),
    ("c.AddBorders(1, 0, 1, 0)", "NotWholeChroma"),
    ("c.AddBorders(65532, 0, 0, 0)", "TooLarge"),
    ("c.LetterBox(-1, 0)", "BadRange"),
    ("c.LetterBox(2, 4)", "OutOfPicture"),
    ("c.LetterBox(0, 0, 4, 4)", "OutOfPicture"),
    ("c.LetterBox(0, 0, color_yuv=-1)", "BadRange"),
    ("c.LetterBox(1, 0)", "NotWholeChroma"),
    ("f.TurnLeft", "TurnFormat"),
    ("f.TurnRight", "TurnFormat"),
    ('c.Invert("YX")', "BadText"),
    ("c.Limiter(-1)", "BadRange"),
    ("c.Limiter(0, 256)", "BadRange"),
    ("c.Limiter(200, 100)", "BadRange"),
    ("c.Limiter(min_chroma=241)", "BadRange"),
    ("c.Limiter(max_chroma=256)", "BadRange"),
    ("g.UToY8", "NeedsChroma"),
    ("g.VToY8", "NeedsChroma"),
    ("StackHorizontal(c, d)", "FormatDiffers"),
    ("StackHorizontal(c, c.CropBottom(2))", "SizeDiffers"),
    ("StackVertical(c, d)", "FormatDiffers"),
    ("StackVertical(c, e)", "SizeDiffers"),
    ("StackVertical(c)", "NoMatch"),
    ("Merge(c, d)", "FormatDiffers"),
    ("Merge(c, e)", "SizeDiffers"),
    ("MergeLuma(c, d)", "FormatDiffers"),
    ("MergeLuma(c, e)", "SizeDiffers"),
    ("MergeChroma(c, e)", "SizeDiffers"),
    ("MergeChroma(c, g)", "FormatDiffers"),
    ('c.ApplyRange(1, 5, "Reverse")', "BadRange"),
    ('c.ApplyRange(2, 1, "Reverse")', "BadRange"),
    ('c.ApplyRange(-1, 1, "Reverse")', "BadRange"),
    ('c.ApplyRange(0, 1, "ConvertToY8")', "FormatDiffers"),
    ('c.ApplyRange(0, 1, "Crop", 0, 0, 2, 2)', "SizeDiffers"),
    ('c.ApplyRange(0, 1, "Crop", 1, 0, 2, 2)', "NotWholeChroma"),
    ('c.ApplyRange(0, 9, "Width")', "TypeFault"),
    ('c.ApplyRange(0, 9, "Nothing")', "UnknownName"),
    ('c.ApplyRange(0, 9, "Trim")', "NoMatch"),
    ("c.ApplyRange(0, 9)", "NoMatch"),
    ("h.ConvertToY8", "DepthRefused"),
    ("c.ConvertBits", "NoMatch"),
    ("c.ConvertBits(9)", "BadRange"),
    ("h.ConvertBits(0)", "BadRange"),
    ("c.ConvertBits(-8)", "BadRange"),
    ("c.ConvertBits(18)", "BadRange"),
    ("c.ConvertBits(4294967304)", "BadRange"),
    ('BlankClip(pixel_type="YV411").ConvertBits(10)', "DepthRefused"),
    ('BlankClip(pixel_type="YV411").ConvertBits(11)', "BadRange"),
    ('BlankClip(width=4096, height=4096, pixel_type="Y8").ConvertBits(10)', "TooLarge"),
    ('h.ApplyRange(0, 1, "ConvertBits", 8)', "FormatDiffers"),
    ("h.UToY8", "DepthRefused"),
    ("h.VToY8", "DepthRefused"),
    ("i.ConvertToY8", "DepthRefused"),
    ("i.UToY8", "NeedsChroma"),
    ("YToUV(i, i, h.Crop(0, 0, 4, 2))", "SizeDiffers"),
    ("YToUV(i, i, StackHorizontal(i, i, i, i))", "DepthRefused"),
    ("YToUV(g, g, i)", "FormatDiffers"),
    ("YToUV(g, i, c)", "FormatDiffers"),
    ("Interleave(c, h)", "FormatDiffers"),
    ("c + h", "FormatDiffers"),
    ("Merge(c, h)", "FormatDiffers"),
    ("MergeLuma(h, c)", "FormatDiffers"),
    ("StackVertical(c, h)", "FormatDiffers"),
    ("StackHorizontal(h, e)", "FormatDiffers"),
    ('h.ApplyRange(0, 1, "ConvertToY8")', "DepthRefused"),
    ("h.Limiter(0, 256)", "BadRange"),
    ("h.AddBorders(0, 0, 0, 0, $1000000)", "BadRange"),
    ("h.TemporalSoften(1, 256, 0)", "BadRange"),
    ('BlankClip(pixel_type="YUV411P10")', "BadText"),
    ('BlankClip(pixel_type="YUV420P9")', "BadText"),
    ('BlankClip(width=2900, height=2900, pixel_type="YUV444P16")', "TooLarge"),
    ("c.TemporalSoften(8, 0, 0)", "BadRange"),
    ("c.TemporalSoften(-1, 0, 0)", "BadRange"),
    ("c.TemporalSoften(1, 256, 0)", "BadRange"),
    ("c.TemporalSoften(1, 0, -1)", "BadRange"),
    ("c.TemporalSoften(1, 1)", "NoMatch"),
    ('c.GeneralConvolution(256, "x")', "BadRange"),
    ("c.GeneralConvolution(-256)", "BadRange"),
    ('c.GeneralConvolution(0, "1 2 3")', "BadText"),
    ('c.GeneralConvolution(0, "0 0 0 0 1025 0 0 0 0")', "BadText"),
    ('c.GeneralConvolution(0, "0 0 0 0 +1 0 0 0 0")', "BadText"),
    ('SetFilterMTMode("Invert", 0)', "ModeRefused"),
    ("c.Prefetch(0)", "PrefetchRange"),
    ("c.Prefetch(4, 33)", "PrefetchRange"),
    ("YToUV(g, c, c)", "SizeDiffers"),
    ("YToUV(g, g, c)", "SizeDiffers"),
    ("BlankClip(length=-1)", "BadRange"),
    ("BlankClip(width=0)", "BadRange"),
    ("BlankClip(height=0)", "BadRange"),
    ("BlankClip(fps=0)", "BadRange"),
    ("BlankClip(fps_denominator=0)", "BadRange"),
    ("BlankClip(color_yuv=$1000000)", "BadRange"),
    ('BlankClip(pixel_type="YV13")', "BadText"),
    ("BlankClip(width=3)", "NotWholeChroma"),
    ("BlankClip(c, length=0)", "EmptyClip"),
]


def run(folder, script):
    with open(os.path.join(folder, "s.avs"), "w", encoding="utf-8") as file:
        file.write(script)
    return subprocess.run([PROGRAM, "render", "s.avs"], cwd=folder, capture_output=True, timeout=60, check=False)


def put(folder, **clips):
    for name, clip in clips.items():
        with open(os.path.join(folder, f"{name}.y4m"), "wb") as file:
            file.write(clip.stream())
    return "".join(f'{name} = Y4MSource("{name}.y4m")\n' for name in clips)


class Report:
    def __init__(self):
        self.runs, self.wrong = 0, 0

    def compare(self, what, done, status, out, said):
        self.runs += 1
        found = (done.returncode, done.stdout, done.stderr.decode(errors="replace").strip())
        if found != (status, out, said):
            self.wrong += 1
            print(f"{what}: status {found[0]}, {len(found[1])} bytes, {found[2]!r}; wanted {status}, {len(out)} bytes, {said!r}")


def main():
    if "AVSSERVE" not in os.environ:
        subprocess.run([os.path.join(ROOT, "build")], check=True)
    dice = random.Random(1)
    report = Report()
    with tempfile.TemporaryDirectory() as folder:
        for kind, sizes in SIZES.items():
            for width, height in sizes:
                c, d = at_random(dice, kind, width, height, 5), at_random(dice, kind, width, height, 3)
                before = put(folder, c=c, d=d)
                rows = [*time_rows(c, d), *space_rows(c), *depth_rows(c), *join_rows(c, d), *soft_rows(dice, c), *range_rows(c, d)]
                for call, want in rows:
                    done = run(folder, f"{before}{call}\n")
                    report.compare(f"{kind} {width}x{height} {call}", done, 0, want.stream(), "")
        for kind, bits, width, height in FIELDS:
            c = at_random(dice, kind, width, height, 5, bits)
            for field in "ptb?" if width < 3 else "p":
                before = put(folder, c=c.also(field=field))
                for call, want in field_rows(c.also(field=field)):
                    done = run(folder, f"{before}{call}\n")
                    report.compare(f"{kind} of {bits} bits {width}x{height} I{field} {call}", done, 0, want.stream(), "")
        for kind, width, height in BLOCKS:
            c = at_random(dice, kind, width, height, 2)
            before = put(folder, c=c)
            for call, want in [*space_rows(c), *depth_rows(c)]:
                done = run(folder, f"{before}{call}\n")
                report.compare(f"{kind} {width}x{height} {call}", done, 0, want.stream(), "")
        for kind, bits, width, height in DEEP:
            c, d = at_random(dice, kind, width, height, 5, bits), at_random(dice, kind, width, height, 3, bits)
            before = put(folder, c=c, d=d)
            rows = [*time_rows(c, d), *space_rows(c), *depth_rows(c), *join_rows(c, d), *soft_rows(dice, c), *range_rows(c, d)]
            for call, want in rows:
                done = run(folder, f"{before}{call}\n")
                report.compare(f"{kind} of {bits} bits {width}x{height} {call}", done, 0, want.stream(), "")
        for kind, bits, width, height in DEEP_BLOCKS:
            c, d = at_random(dice, kind, width, height, 3, bits), at_random(dice, kind, width, height, 2, bits)
            before = put(folder, c=c, d=d)
            for call, want in [*space_rows(c), *depth_rows(c), *join_rows(c, d), *soft_rows(dice, c)]:
                done = run(folder, f"{before}{call}\n")
                report.compare(f"{kind} of {bits} bits {width}x{height} {call}", done, 0, want.stream(), "")
        for (u, v, y), want in plane_rows(dice):
            done = run(folder, put(folder, u=u, v=v, y=y) + "YToUV(u, v, y)\n")
            report.compare(f"YToUV to {want.kind}", done, 0, want.stream(), "")
        c, d = at_random(dice, "YV12", 6, 4, 5), at_random(dice, "YV24", 6, 4, 5)
        e, f = at_random(dice, "YV12", 8, 4, 5), at_random(dice, "YV16", 2, 2, 1)
        g, h, i = at_random(dice, "Y8", 1, 1, 1), at_random(dice, "YV12", 6, 4, 5, 10), at_random(dice, "Y8", 1, 1, 1, 10)
        before = put(folder, c=c, d=d, e=e, f=f, g=g, h=h, i=i)
        for call, kind in REFUSALS:
            done = run(folder, f"{before}{call}\n")
            report.compare(call, done, 2, b"", f"script fault: s.avs line 8: {kind}")
    print(f"filters: {report.runs} runs, {report.wrong} wrong")
    return 1 if report.wrong else 0


if __name__ == "__main__":
    sys.exit(main())
