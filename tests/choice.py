#!/usr/bin/env python3
"""Renders both filters of choice at run time over expressions, and compares each stream with a second reading of the rules.

    tests/choice.py [--runs N] [--seed S]

The second reading is tests/expressions.py. Tables say what expressions are worth and which texts are none, and that reading is
held against them too. Planes of each format and of 8 to 16 bits have odd sizes, and come whole and as parts of others. Then come
N expressions at random, with some that are none. A text that is none has a run of its own; the calls of the others are spliced,
many to a script, and each is rendered alone where a script gives another stream.

The program is built first, unless the environment names one as AVSSERVE.
"""

import argparse
import os
import random
import subprocess
import sys
import tempfile
from fractions import Fraction

from expressions import COMPARISONS, COUNTS, DEEPEST, GREATEST, LEAST, NAMES, counted, filtered, read, selected, value, values
from filters import FORMATS, ROOT, SIZES, Clip, Report, at_random, cut, each, inverted, planes_of, put, run, separated

# As many expressions as one script has.
BATCH = 40


def quoted(text):
    """The text as scripts write it."""
    if '"' not in text:
        return f'"{text}"'
    if '"""' not in text and text[-1] != '"':
        return f'"""{text}"""'
    return " + Chr(34) + ".join(f'"{part}"' for part in text.split('"'))


def select_call(test, text, *sources):
    return f"ConditionalSelect({', '.join([test, quoted(text), *sources])})"


def filter_call(test, a, b, left, compare, right):
    return f'ConditionalFilter({test}, {a}, {b}, {quoted(left)}, "{compare}", {quoted(right)})'


def literal(number):
    return str(number) if number >= 0 else f"${number & (1 << 64) - 1:016X}"


def by_frame(numbers):
    """An expression that has these numbers at frames 0, 1, .."""
    if len(set(numbers)) == 1:
        return literal(numbers[0])
    return "+".join(f"Max(0,1-Abs(current_frame-{n}))*{literal(x)}" for n, x in enumerate(numbers))


# Expressions by their values over frame 5 of a clip with the samples 2, 3, 7, 9 of Y, 10 of U, and 255 of V.
VALUES = {
    1: [
        "--1", "7 % -2", "(((1)))", "1#", "1 # + 1", "# 2\n1", "\n\n 1 \n\t\n", "1 /* + 1 */", "/**/1/***/",
        "[* [* *] 1 + *] 1", "1 \\", "\r1\r\n", "(\n1\n)", "\ufeff1", "1\n__END__\n)", "1\n \t__END__\r", "1 \\\n__END__\n+ 1",
        "/*\n__END__\n*/ 1", '1 # "', '1 /* """ ä " */', "1" + " " * 4095, "1 #" + "ä" * 2046 + "a",
        "Max(0" + ",1" * 2045 + ")", "(" * 32 + "1" + ")" * 32, "-" * 32 + "1", "Abs(" * 32 + "1" + ")" * 32,
        "Abs(" * 31 + "-1" + ")" * 31, "-(" * 16 + "1" + ")" * 16, "Max(1," * 32 + "1" + ")" * 32,
    ],
    2: [
        "YPlaneMin", "1--1", "MIN(Max(1, 2), Abs((-3)), current_frame())", "Max(1\n,\n2\n)", "(1 # 2)\n+ 1)", "1 /*\n*/ + 1",
        "1/*/*/+1", "[*[**]*]1[* \n *]+[*]*]1", "1 \\\n+ 1", "1 \\ \t\r\n + 1", "1\n\t\\ + 1", "1 # 2\n\\+ 1",
        "1 \\\n\n\\ + 1", "\t1\t+\t1\t", "-" * 32 + "1" + " + " + "-" * 32 + "1",
        "(" * 32 + "1" + ")" * 32 + "*" + "(" * 32 + "2" + ")" * 32,
    ],
    3: ["YPlaneMedian", "2 - (3 - 4)", "-7 / -2", "6 //* [* */ 2"],
    5: [
        "current_frame", "CURRENT_Frame ( )", "current_frame(\n)", "1 + 2 * 3 - 8 / 4", "7 - 2 * 3 % 4",
        "Min(3, 1, 2) + Max(3, -1, 4, 2)", "(" * 31 + "current_frame()" + ")" * 31, "(" * 32 + "current_frame" + ")" * 32,
    ],
    6: ["-2 * -3", "-(1 + 1) * -3", "2 */* */ 3"],
    7: ["7", "007", "Abs(-7)", "abs(YPlaneMin - YPlaneMax)"],
    9: ["yPLANEmax()"],
    10: ["100 / 7 % 4 * 5"],
    16: ["$0000000000000010"],
    30: ["UPlaneMin + UPlaneMax + UPlaneMedian"],
    50: ["100 / (10 / 5)"],
    255: ["$fF"],
    2048: ["1" + "+1" * 2047],
    64770: ["vplanemin*vplanemax-vplanemedian"],
    GREATEST: [
        "9223372036854775807", "000009223372036854775807", "$7fffFFFFffffFFFF",
        "Max($8000000000000000, 0, 9223372036854775807)", "Abs(-9223372036854775807)",
    ],
    0: ["1 - - - 1 + 0", "$8000000000000000 % -1", "0 / -5", "-1 + 1"],
    -1: ["$FFFFFFFFFFFFFFFF", "-7 % 2", "-7 % -2", "$8000000000000000 + 9223372036854775807", "1" + "*-1" * 1365],
    -2: ["-" * 31 + "(1) - " + "(" * 32 + "1" + ")" * 32],
    -3: ["-7 / 2", "7 / -2"],
    -5: ["2 - 3 - 4"],
    -6: ["2*-3", "-2 * 3"],
    -8: ["$8000000000000000 % 10", "Min(YPlaneMin, $100) - $A"],
    -4611686018427387904: ["$8000000000000000 / 2"],
    -9223372033963249500: ["-3037000500 * 3037000499"],
    LEAST: [
        "$8000000000000000", "Min($8000000000000000, 0, 9223372036854775807)", "-9223372036854775807 - 1",
        "-4294967296 * 2147483648",
    ],
    None: [
        "9223372036854775807 + 1", "9223372036854775807 + 1 - 1", "$8000000000000000 - 1", "$8000000000000000 + -1",
        "4294967296 * 2147483648", "-3037000500 * 3037000500", "$8000000000000000 * -1", "$8000000000000000 / -1",
        "-$8000000000000000", "Abs($8000000000000000)", "1 / 0", "1 % 0", "0 * (1 / (YPlaneMin - 2))",
        "Min(1, 2, 3 % (5 - current_frame))", "Abs(1 / 0)", "-(1 % 0)",
    ],
}
# Texts that are no expressions.
WRONG = [
    "", " ", "\n", "# 1", "/* 1 */", "\\", "__END__", "\n__END__\n1", "\ufeff", "true", "false", "yes", "no", "!1", "!true",
    "-true", "true + 1", "1 == 1", "1 != 2", "YPlaneMax > 3", "1 < 2", "1 <= 2", "1 >= 2", "1 && 1", "true && true", "1 || 1",
    "false || true", "true ? 1 : 2", "1 ? 1 : 2", "1 < 2 ? 3 : 4", "(1 == 1)", "Abs(true)", "Max(1, true)", "Max(1, 1 == 1)",
    "1 + (2 > 1)", "1 = 1", "1 & 1", "1 | 1", "1 ++ 1", "1++1", "1 + ++ 1", "+1", "1 + +1", "1 + + 1", "1 +", "* 1", "1 -",
    "1 / / 1", "1 % % 1", "1 ** 2", "-", "- -", "1 2", "1 a", "1a", "$1g", "$", "$ 1", "1_000", "9223372036854775808",
    "-9223372036854775808", "99999999999999999999", "$10000000000000000", "$00000000000000001", "0x10", "1.5", "1.", ".5",
    "1e3", "$1.5", "1.Abs", "(1).Abs", "YPlaneMax.Abs", "YPlaneMax.Abs()", "current_frame.Min(1)", "(1).YPlaneMin",
    "last.YPlaneMin", "YPlaneMin(last)", "YPlaneMin(1)", "current_frame(0)", "YPlaneMin(", "YPlaneMin)", "YPlaneMin()()",
    "YPlaneMin(())", "(YPlaneMin)()", "Abs", "Abs 1", "Abs()", "Abs(1, 2)", "Abs(1,)", "Abs(,1)", "Min", "Min()", "Min(1)",
    "Max(1)", "Max(1 2)", "Max(1, , 2)", "Max(1, 2,)", "Max(,)", "Max((1, 2))", "Abs(a=1)", "Min(a=1, 2)", "Min(1, b=2)",
    "Abs(int=1)", "a", "c", "last", "x", "Sign(1)", "Nop", "Nop()", "BitAnd(1, 2)", "Select(0, 1, 2)", "Default(1, 2)",
    "Width", "FrameCount", "Nothing()", "AverageLuma", "AverageLuma()", "YDifferenceFromPrevious", "YPlaneMinMaxDifference",
    "YPlaneMedian2", "APlaneMin", "PlaneMin", "YPlane", "YPlane Min", "Y PlaneMin", "current frame", "currentframe",
    "Current_Frames", "ypLanemean", "R", "yPlaneMi", "Int(1)", "Value(\"1\")", "String(1)", "\"1\"", "\"a\" + \"b\"", "\"",
    "\"\"\"", "1 \"", "'1'", "Eval(\"1\")", "StrLen(\"a\")", "\"1\" == \"1\"", "1\n2", "1\n+ 2", "1 #\n+ 2", "1 +\n2",
    "Abs\n(1)", "YPlaneMin\n()", "-\n1", "1; 2", "1, 2", "(1)(2)", "(1) 2", "1 (2)", "()", "(", ")", "(1", "1)", "((1)",
    "(1))", ")1(", "(1\n__END__\n)", "(1 # )", "a = 1", "current_frame = 1", "global a = 1", "return 1", "1 return",
    "if (true) { 1 }", "{ 1 }", "{1}", "while (false) { } 1", "for (i = 1, 2) { }", "function F() { 1 }", "function F() { } 1",
    "function", "global", "return", "if", "else", "while", "for", "__end__", "__END__ 1", "1 __END__", "1\n__END__ #",
    "1\n\\__END__", "/*", "/* 1", "1 /* /*", "1 /*/", "[*", "1 [* [* *]", "*]", "1 *]", "1 /* /* */ */", "[* *] *]", "[1]",
    "[", "]", "*/ 1", "1 // 2", "1 \\ 2", "\\ 1", "1 \\ # 2\n", "1 \\\n\\ + 2", "1\n\\\n+ 2", "1 \\ /**/\n", "1 ü", "ü",
    "1 + ½", "１", "1\u00a0+ 1", "1\u2028", "1 − 1", "Abſ(1)", "\ufeff\ufeff1", "1 \ufeff", "1\x0b", "1\x0c", "1@", "1 ^ 2",
    "~1", "1 `", "1 \x7f", "1 \x01", "1" + " " * 4096, "1 #" + "ä" * 2046 + "aa", "1 #" + "ä" * 2047, "1" + "+1" * 2048,
    "\n" * 4096 + "1", "1 #" + " " * 9000, "(" * 33 + "1" + ")" * 33, "-" * 33 + "1", "Abs(" * 33 + "1" + ")" * 33,
    "Abs(" * 32 + "-1" + ")" * 32, "(" * 32 + "-1" + ")" * 32, "(" * 32 + "current_frame()" + ")" * 32,
    "-(" * 16 + "-1" + ")" * 16, "Max(1," * 33 + "1" + ")" * 33, "(" * 32 + "Abs(1)" + ")" * 32, "1 + " + "-" * 33 + "1",
    "(" * 2000, "-" * 4096, "Abs(" * 1000,
]
# What is an expression for clips with chroma alone.
CHROMA = [
    "UPlaneMin", "VPlaneMin", "uplanemax()", "VPLANEMAX", "UPlaneMedian", "vPlaneMedian", "1 + Max(0, UPlaneMin)",
    "0 * VPlaneMax",
]

# Calls on c, of 6x4 and five frames in YV12, d, of the same in YV24, e, of 8x4 in YV12, g, of luma alone and 1x1, h and i, which
# are as c and g with 10 bits, and j, of luma alone and 2x2.
BEFORE = """c = BlankClip(5, 6, 4)
d = BlankClip(5, 6, 4, "YV24")
e = BlankClip(5, 8, 4)
g = BlankClip(1, 1, 1, "Y8")
h = BlankClip(5, 6, 4, "YUV420P10")
i = BlankClip(1, 1, 1, "Y10")
j = BlankClip(1, 2, 2, "Y8")
"""
REFUSALS = [
    ("ConditionalSelect", "NoMatch"),
    ("ConditionalSelect(c)", "NoMatch"),
    ('ConditionalSelect(c, "0")', "NoMatch"),
    ('c.ConditionalSelect("0")', "NoMatch"),
    ('ConditionalSelect("0", c)', "NoMatch"),
    ("ConditionalSelect(c, 0, c)", "NoMatch"),
    ("ConditionalSelect(c, c, c)", "NoMatch"),
    ('ConditionalSelect(c, "0", c, 1)', "NoMatch"),
    ('ConditionalSelect(c, "0", c, "1")', "NoMatch"),
    ('ConditionalSelect(c, "true", c, true, d)', "NoMatch"),
    ('ConditionalSelect(c, "0", c, show=true)', "NoMatch"),
    ('ConditionalSelect(c, expression="0", c)', "NoMatch"),
    ('ConditionalSelect(c, "0", Assert(true))', "NoMatch"),
    ('ConditionalSelect(c, "true", d)', "BadExpression"),
    ('ConditionalSelect(c, "a", e, d)', "BadExpression"),
    ('ConditionalSelect(c, "0", d)', "FormatDiffers"),
    ('ConditionalSelect(c, "0", c, h)', "FormatDiffers"),
    ('ConditionalSelect(h, "0", c)', "FormatDiffers"),
    ('ConditionalSelect(g, "0", g, i)', "FormatDiffers"),
    ('ConditionalSelect(c, "0", e)', "SizeDiffers"),
    ('ConditionalSelect(c, "0", c, c, c.CropBottom(2))', "SizeDiffers"),
    ('ConditionalSelect(c, "0", e, d)', "FormatDiffers"),
    ('ConditionalSelect(g, "0", j)', "SizeDiffers"),
    ('ConditionalSelect(g, "UPlaneMin", g)', "BadExpression"),
    ('ConditionalSelect(i, "0 * VPlaneMedian()", i)', "BadExpression"),
    ('ConditionalSelect(c.ConvertToY8, "UPlaneMin", c)', "BadExpression"),
    ('c.ApplyRange(0, 1, "ConditionalSelect", "1 == 1", c)', "BadExpression"),
    ('c.ApplyRange(0, 1, "ConditionalSelect", "1", d)', "FormatDiffers"),
    ('c.ApplyRange(0, 1, "ConditionalSelect", "1")', "NoMatch"),
    ('function Abs(int a) { return a }\nConditionalSelect(c, "Abs(1, 2)", c)', "BadExpression"),
    ('function F() { return 1 }\nConditionalSelect(c, "F()", c)', "BadExpression"),
    ('current = 1\nConditionalSelect(c, "current", c)', "BadExpression"),
    ("ConditionalFilter", "NoMatch"),
    ("ConditionalFilter(c, c, c)", "NoMatch"),
    ('ConditionalFilter(c, c, c, "1")', "NoMatch"),
    ('ConditionalFilter(c, c, c, "1", "==")', "NoMatch"),
    ('ConditionalFilter(c, c, c, "true", "<=", "2", true)', "NoMatch"),
    ('ConditionalFilter(c, c, c, "1", "==", "1", "1")', "NoMatch"),
    ('ConditionalFilter(c, c, c, "1", "==", "1", show=true)', "NoMatch"),
    ('ConditionalFilter(c, c, c, 1, "==", "1")', "NoMatch"),
    ('ConditionalFilter(c, c, c, "1", "==", 1)', "NoMatch"),
    ('ConditionalFilter(c, c, "1", "==", "1")', "NoMatch"),
    ('ConditionalFilter("1", c, c, "==", "1", c)', "NoMatch"),
    ('ConditionalFilter(c, c, c, c, "1", "==", "1")', "NoMatch"),
    ('ConditionalFilter(c, c, d, "1 == 1", "no", "1")', "BadExpression"),
    ('ConditionalFilter(c, c, d, "1", "no", "!1")', "BadExpression"),
    ('ConditionalFilter(c, c, e, "", "", "")', "BadExpression"),
    ('ConditionalFilter(g, c, c, "UPlaneMin", "==", "1")', "BadExpression"),
    ('ConditionalFilter(i, c, c, "1", "==", "VPlaneMax")', "BadExpression"),
    ('ConditionalFilter(c, g, j, "UPlaneMin", "no", "VPlaneMax")', "BadText"),
    ('ConditionalFilter(c, c, d, "1", "no", "1")', "BadText"),
    ('ConditionalFilter(c, c, e, "1", "<=", "1")', "BadText"),
    ('ConditionalFilter(c, c, d, "1", "==", "1")', "FormatDiffers"),
    ('ConditionalFilter(d, c, d, "1", "==", "1")', "FormatDiffers"),
    ('ConditionalFilter(c, c, h, "1", "==", "1")', "FormatDiffers"),
    ('ConditionalFilter(g, c, e, "1", "==", "1")', "SizeDiffers"),
    ('ConditionalFilter(c, e, c, "1", "==", "1")', "SizeDiffers"),
    ('ConditionalFilter(c, g, j, "1", "==", "1")', "SizeDiffers"),
    ('c.ApplyRange(0, 1, "ConditionalFilter", g, g, "1", "==", "1")', "FormatDiffers"),
    ('c.ApplyRange(0, 1, "ConditionalFilter", e, e, "1", "==", "1")', "SizeDiffers"),
    ('c.ApplyRange(0, 1, "ConditionalFilter", c, c, "1", "equal", "1")', "BadText"),
    ('for (k = 1, 4089) { c.Reverse }\nConditionalSelect(c, "0", c)', "NodeLimit"),
    ('for (k = 1, 4089) { c.Reverse }\nConditionalSelect(c, "x", c)', "BadExpression"),
    ('c\nfor (k = 1, 511) { Reverse }\nConditionalSelect(c, "0", last)', "DepthLimit"),
    ('g\nfor (k = 1, 511) { Reverse }\nConditionalFilter(last, c, c, "0", "==", "0")', "DepthLimit"),
]
WRONG_COMPARISONS = [
    "", " ", "=", "===", "!=", "<=", ">=", "<>", "=>", "equal", "equals ", " ==", "== ", "greater", "greaterthan >",
    "less than", "not equals", "lessthan\n", "equalſ", "leſſthan", "e", "GREATERTHANOREQUAL", "> <",
]


def batch(report, folder, before, what, rows):
    """Splices calls of which all have clips of one size, and renders each alone where the stream isn't the right one."""
    script = before + "UnalignedSplice(\n" + ",\n".join(call for call, _ in rows) + ")\n"
    want = rows[0][1].also(frames=[frame for _, clip in rows for frame in clip.frames])
    done = run(folder, script)
    wrong = report.wrong
    report.compare(f"{what}, {len(rows)} of them", done, 0, want.stream(), "")
    if report.wrong > wrong:
        for call, clip in rows:
            report.compare(f"{what} {call[:300]!r}", run(folder, f"{before}{call}\n"), 0, clip.stream(), "")


def fault(report, folder, before, call, kind):
    """The fault stands in the line of the last name of a filter."""
    script = f"{before}{call}\n"
    line = script.count("\n", 0, script.rindex("Conditional")) + 1
    report.compare(repr(call[:300]), run(folder, script), 2, b"", f"script fault: s.avs line {line}: {kind}")


def expression_rows(dice, text, t, a, b, *sources):
    """Calls that show whether an expression has the right number, or none, at each frame; a is longer than t."""
    found = values(t, text, len(a.frames))
    same = by_frame([0 if number is None else number for number in found])
    calls = [(text, "==", same), (text, ">", "-1"), (text, "<", "0")]
    if dice.random() < 0.3:
        calls.append((by_frame([0, 3]), "<", text))
    for left, compare, right in calls:
        compare = in_case(dice, dice.choice([word for word, sign in COMPARISONS.items() if sign == compare]))
        yield filter_call("t", "s0", "s1", left, compare, right), filtered(t, a, b, left, compare, right)
    names = [f"s{n}" for n in range(len(sources) + 2)]
    yield select_call("t", text, *names), selected(t, text, a, b, *sources)


def value_rows(report, dice, folder):
    """The tables, over frames of which the one with number 5 is the one that they are about."""
    frames = [[[[dice.randrange(256) for _ in range(w)] for _ in range(h)] for w, h in [(2, 2)] * 3] for _ in range(6)]
    frames[5] = [[[9, 2], [3, 7]], [[10, 10], [10, 10]], [[255, 255], [255, 255]]]
    t, sources = Clip("YV24", 2, 2, frames), [at_random(dice, "YV24", 2, 2, n) for n in (8, 5, 6, 1)]
    rows = []
    for text, number in [(text, number) for number, texts in VALUES.items() for text in texts]:
        tree = read(text)
        if tree is None or value(tree, 5, frames[5]) != number:
            report.wrong += 1
            print(f"this script: {text[:100]!r} is read as {tree}, wanted {number}")
        rows += expression_rows(dice, text, t, *sources)
    before = put(folder, t=t, **{f"s{n}": clip for n, clip in enumerate(sources)})
    for at in range(0, len(rows), 4 * BATCH):
        batch(report, folder, before, "values", rows[at : at + 4 * BATCH])


def wrong_calls(dice, text, test="c"):
    """A call that is refused for an expression, whatever else is wrong in it."""
    yield select_call(test, text, dice.choice("cdg"))
    yield filter_call(test, "c", dice.choice("ce"), text, dice.choice(["==", "no"]), dice.choice(["1", text, "true"]))
    yield filter_call(test, "c", dice.choice("cd"), "1", dice.choice(["==", "<="]), text)


def wrong_rows(report, dice, folder):
    for text in WRONG:
        if read(text) is not None:
            report.wrong += 1
            print(f"this script: {text[:100]!r} is read")
        fault(report, folder, BEFORE, dice.choice([*wrong_calls(dice, text)]), "BadExpression")
    for text in CHROMA:
        if read(text) is None or read(text, False) is not None:
            report.wrong += 1
            print(f"this script: {text!r} is read as {read(text)}, {read(text, False)}")
        for call in wrong_calls(dice, text, dice.choice("gi")):
            fault(report, folder, BEFORE, call, "BadExpression")
    for call, kind in REFUSALS:
        fault(report, folder, BEFORE, call, kind)
    for compare in WRONG_COMPARISONS:
        fault(report, folder, BEFORE, filter_call("c", "c", dice.choice("cde"), "1", compare, "1"), "BadText")


def plane_of(dice, kind, width, height, largest):
    """A plane of a content that has its own least, greatest or middle sample."""
    size = width * height
    low, high = sorted((dice.randrange(largest + 1), dice.randrange(largest + 1)))
    if kind == "equal":
        samples = [low] * size
    elif kind == "half":
        samples = [high] * (size // 2) + [low] * (size - size // 2)
    elif kind == "one less":
        samples = [low] * ((size - 1) // 2) + [high] * (size - (size - 1) // 2)
    elif kind == "few":
        samples = dice.choices([low, high, largest, 0], k=size)
    elif kind == "ends":
        samples = dice.choices([0, largest], k=size)
    elif kind == "one":
        samples = [high] * size
        samples[dice.randrange(size)] = low
    elif kind == "board":
        samples = [(low, high)[(n % width + n // width) % 2] for n in range(size)]
    else:
        samples = [dice.randrange(low, high + 1) for _ in range(size)]
    if kind in ("rising", "falling"):
        samples.sort(reverse=kind == "falling")
    elif kind in ("half", "one less"):
        dice.shuffle(samples)
    return [samples[y * width : (y + 1) * width] for y in range(height)]


CONTENTS = ("equal", "half", "one less", "few", "ends", "one", "board", "any", "rising", "falling")


def contents(dice, kind, width, height, bits, count):
    """A clip of frames whose planes have different contents."""
    frames = [
        [plane_of(dice, dice.choice(CONTENTS), w, h, (1 << bits) - 1) for w, h in planes_of(kind, width, height)]
        for _ in range(count)
    ]
    return Clip(kind, width, height, frames, bits=bits)


def dots(count):
    """What is shown where a count is right, and where it isn't, whatever the test is."""
    return {name: Clip("Y8", 1, 1, [[[[first + n]]] for n in range(count)]) for name, first in (("a", 0), ("b", 100))}


def count_rows(dice, call, test):
    """Calls that show a where the counts of all planes of the test are right, and some that show b there."""
    a, b = dots(len(test.frames)).values()
    for plane, letter in enumerate("YUV"[: len(test.frames[0])]):
        text = f"{letter}PlaneMin + $10000 * {letter}PlaneMax + $100000000 * {letter}PlaneMedian"
        same = by_frame([sum(counted(frame[plane], count) << 16 * k for k, count in enumerate(COUNTS)) for frame in test.frames])
        yield filter_call(call, "a", "b", text, "equals", same), a
        if dice.random() < 0.3:
            count = dice.choice(COUNTS)
            numbers = [counted(frame[plane], count) for frame in test.frames]
            for more, want in ((0, a), (1, b)):
                right = by_frame([number + more for number in numbers])
                yield filter_call(call, "a", "b", f"{letter}Plane{count}", "equals", right), want


def parts_of(dice, call, clip):
    """Clips whose planes are parts of those of this one, which has whole fields, or have their rows in another order."""
    a, d = FORMATS[clip.kind][1] or (1, 1)
    upside_down = clip.of(each(lambda p, plane: plane[::-1]))
    yield call, clip
    yield f"{call}.FlipVertical", upside_down
    yield f"{call}.Invert", inverted(clip, "YUV")
    kept = range(len(clip.frames))
    yield f"{call}.SeparateFields.Trim(0, {-len(kept)})", separated(clip).shown(kept)
    yield f"{call}.FlipVertical.SeparateFields.Trim(0, {-len(kept)})", separated(upside_down).shown(kept)
    for columns in range(1, clip.width // a + 1):
        width, left = columns * a, dice.randrange(clip.width // a - columns + 1) * a
        height = dice.randrange(1, clip.height // d + 1) * d
        top = dice.randrange((clip.height - height) // d + 1) * d
        if columns > 20 and dice.random() < 0.6:
            continue
        part = cut(clip, left, top, width, height)
        yield f"{call}.Crop({left}, {top}, {width}, {height})", part
        if dice.random() < 0.3:
            yield f"{call}.Crop({left}, {top}, {width}, {height}).Invert", inverted(part, "YUV")


def counts(report, dice, folder):
    """What is counted of planes, in each format, of each number of bits and of many sizes."""
    count = 5
    for kind, sizes in SIZES.items():
        a, d = FORMATS[kind][1] or (1, 1)
        for bits in (8, 10, 12, 14, 16) if kind != "YV411" else (8,):
            clips = {"t": contents(dice, kind, 67 // a * a, 4 * d, bits, count)}
            for n, (width, height) in enumerate([*sizes, (31 * a, 3 * d), (32 * a, d), (33 * a, 2 * d), (64 * a, d), (65 * a, d)]):
                clips[f"t{n}"] = contents(dice, kind, width, height, bits, count)
            before = put(folder, **dots(count), **clips)
            rows = [row for name in clips if name != "t" for row in count_rows(dice, name, clips[name])]
            rows += [row for call, test in parts_of(dice, "t", clips["t"]) for row in count_rows(dice, call, test)]
            batch(report, folder, before, f"counts of {kind} of {bits} bits", rows)
    for kind, bits in (("Y8", 8), ("Y8", 16), ("YV12", 8), ("YV16", 10), ("YV24", 14)):
        t = contents(dice, kind, 4096, 2, bits, count)
        before = put(folder, t=t, **dots(count))
        rows = [row for call, test in (("t", t), ("t.FlipVertical", t)) for row in count_rows(dice, call, test)]
        batch(report, folder, before, f"counts of {kind} of {bits} bits, of 4,096 columns", rows)
    for bits in (8, 16):
        many(report, dice, folder, bits)
    beyond(report, folder)


def many(report, dice, folder, bits):
    """Planes of more samples of one number than 16 bits count, of two numbers: half of each, and a row less of either one."""
    before, rows = put(folder, **dots(1)), []
    for low, high in ((64, 64), (63, 64), (64, 63), (64, 0)):
        colour = dice.randrange(1, 256)
        blanks = [f'BlankClip(1, 4096, {h}, "Y{bits}", color_yuv=${c:02X}8080)' for h, c in ((low, colour), (high, 0)) if h]
        test = Clip("Y8", 4096, low + high, [[[[colour << bits - 8] * 4096] * low + [[0] * 4096] * high]], bits=bits)
        rows += count_rows(dice, f"StackVertical({', '.join(blanks)})" if high else blanks[0], test)
    batch(report, folder, before, f"counts of many samples of {bits} bits", rows)


def beyond(report, folder):
    """Samples over the largest one count as the largest."""
    t = Clip("Y8", 2, 1, [[[[1023, 5]]]], bits=10)
    before = put(folder, t=t, **dots(1))
    with open(os.path.join(folder, "t.y4m"), "wb") as file:
        file.write(t.stream().replace(b"\xff\x03\x05\x00", b"\xff\xff\x05\x00"))
    a = dots(1)["a"]
    rows = [(filter_call("t", "a", "b", "YPlaneMax", "==", "1023"), a), (filter_call("t", "a", "b", "YPlaneMedian", "==", "5"), a)]
    batch(report, folder, before, "a sample over the largest one", rows)


def frame_rows(t, a, b, c):
    """Calls on t, a, b and c, which agree and have other lengths, rates and fields, with the clip that each gives."""
    numbers = ("0", "1", "2", "3", "-1", "$100000000", "$8000000000000000")
    for text in (*numbers, "current_frame % 4", "current_frame - 1", "YPlaneMin % 3", "1 / (current_frame - 2)"):
        yield select_call("t", text, "a", "b", "c"), selected(t, text, a, b, c)
        yield select_call("a", text, "t", "b", "c"), selected(a, text, t, b, c)
    yield select_call("t", "0", "t"), t
    yield 't.ConditionalSelect("current_frame", b, t)', selected(t, "current_frame", b, t)
    yield 't\nConditionalSelect("1", b, a)', selected(t, "1", b, a)
    yield select_call("a", "current_frame + 90", *"tabc" * 30), selected(a, "current_frame + 90", *[t, a, b, c] * 30)
    for compare in COMPARISONS:
        for word in (compare, compare.upper(), compare.title()):
            for left in ("1", "2", "3"):
                yield filter_call("t", "a", "b", left, word, "2"), filtered(t, a, b, left, word, "2")
    middle = "YPlaneMedian" if t.kind == "Y8" else "VPlaneMedian"
    for left, right in (("current_frame", "3"), ("current_frame % 2", "1"), ("YPlaneMin", middle), ("current_frame", "YPlaneMin")):
        for test, name in ((t, "t"), (a, "a")):
            for compare in ("equals", ">", "LessThan"):
                yield filter_call(name, "a", "b", left, compare, right), filtered(test, a, b, left, compare, right)
                yield filter_call(name, "b", "a", left, compare, right), filtered(test, b, a, left, compare, right)
    for left, right in (("1 / current_frame", "1"), ("1", "1 % current_frame"), ("1 / 0", "1 / 0")):
        yield filter_call("t", "a", "b", left, "==", right), filtered(t, a, b, left, "==", right)
    text = "current_frame % 3"
    whole, call = selected(a, text, t, b, c), select_call("a", text, "t", "b", "c")
    n = len(a.frames)
    yield f"{call}.Trim(2, 0)", whole.shown(range(2, n))
    yield f"{call}.Reverse", whole.shown(reversed(range(n)))
    yield f"{call}.SelectOdd", whole.shown(range(1, n, 2), rate=a.rate / 2)
    yield select_call("a.Trim(2, 0)", text, "t", "b", "c"), selected(a.shown(range(2, n)), text, t, b, c)
    yield select_call("a", text, "t.Reverse", call), selected(a, text, t.shown(reversed(range(len(t.frames)))), whole)
    text = "(current_frame + 1) % 3"
    chosen = selected(a, text, t, b)
    yield f'a.ApplyRange(1, 3, "ConditionalSelect", "{text}", t, b)', a.also(
        frames=[chosen.frames[k] if 1 <= k <= 3 else frame for k, frame in enumerate(a.frames)]
    )
    again = filtered(whole, b, c, "current_frame", "<", "YPlaneMedian")
    yield filter_call(call, "b", "c", "current_frame", "<", "YPlaneMedian"), again
    yield 'SetFilterMTMode("ConditionalSelect", 3, true)\n' + call + ".Prefetch(3)", whole
    yield "x = 2\n" + f'ConditionalSelect(a, "current_frame % " + String(x), b, c)', selected(a, "current_frame % 2", b, c)
    yield "function Abs(int x) { return 9 }\nfunction YPlaneMin() { return 9 }\ncurrent_frame = 9\n" + select_call(
        "a", "Abs(-1) + Min(0, YPlaneMin * current_frame)", "b", "c", "t"
    ), selected(a, "1", b, c, t)


def numbers_of_frames(report, dice, folder):
    """Tests and sources that are shorter than others, with infos of their own, and all comparisons; each alone in one format."""
    for kind, width, height, bits in (("YV12", 4, 2, 8), ("Y8", 3, 2, 8), ("YV24", 2, 2, 10), ("YV16", 2, 2, 16)):
        infos = (3, Fraction(30000, 1001), "t"), (7, Fraction(50), "b"), (2, Fraction(1, 3), "p"), (1, Fraction(7), "?")
        clips = {
            name: at_random(dice, kind, width, height, frames, bits).also(rate=rate, field=field)
            for name, (frames, rate, field) in zip("tabc", infos)
        }
        clips["t"] = clips["t"].of(each(lambda p, plane: [[x % 9 for x in row] for row in plane]))
        before, rows, what = put(folder, **clips), list(frame_rows(**clips)), f"{kind} of {bits} bits"
        alone = [row for row in rows if kind == "YV12" or "\n" in row[0]]
        for call, want in alone:
            report.compare(f"{what} {call[:300]!r}", run(folder, f"{before}{call}\n"), 0, want.stream(), "")
        if len(alone) < len(rows):
            batch(report, folder, before, what, [row for row in rows if row not in alone])
    own_infos(report, dice, folder)


def own_infos(report, dice, folder):
    """All that a stream's head says is that of the test, or of a, for which the test may have any other format and size."""
    a, b = at_random(dice, "YV12", 4, 2, 4).also(rate=Fraction(25, 2)), at_random(dice, "YV12", 4, 2, 2).also(field="t")
    tests = {
        "t": at_random(dice, "YV411", 8, 1, 2),
        "u": at_random(dice, "Y8", 1, 3, 9, 14).also(rate=Fraction(3)),
        "v": at_random(dice, "YV16", 2, 1, 1, 12).also(field="b"),
    }
    before = put(folder, a=a, b=b, **tests)
    with open(os.path.join(folder, "a.y4m"), "wb") as file:
        file.write(told(a))
    rows = [(select_call("a", "1 - current_frame", "b", "a"), told(selected(a, "1 - current_frame", b, a)))]
    rows.append((select_call("b", "0", "a"), selected(b, "0", a).stream()))
    for name, test in tests.items():
        for text in ("current_frame % 2", "YPlaneMin / (current_frame - 1)"):
            rows.append((filter_call(name, "a", "b", text, ">", "0"), told(filtered(test, a, b, text, ">", "0"))))
            rows.append((filter_call(name, "b", "a", text, ">", "0"), filtered(test, b, a, text, ">", "0").stream()))
    for call, want in rows:
        report.compare(call, run(folder, f"{before}{call}\n"), 0, want, "")


def told(clip):
    """The stream with other words in its head."""
    return clip.stream().replace(b" A1:1 C420jpeg\n", b" A8:9 C420mpeg2\n", 1)


def in_case(dice, word):
    how = dice.randrange(4)
    return word.upper() if how == 0 else word.lower() if how == 1 else "".join(dice.choice((c.upper(), c.lower())) for c in word)


def number_word(dice):
    number = dice.choice([dice.randrange(4), dice.randrange(10), dice.randrange(10), dice.randrange(300), dice.randrange(1 << 16),
                          1 << dice.randrange(63), (1 << dice.randrange(1, 64)) - 1])
    how = dice.random()
    if how < 0.05:
        return f"${dice.choice([1 << 63, (1 << 64) - 1, (1 << 64) - dice.randrange(1, 300), dice.getrandbits(64)]):x}"
    return in_case(dice, f"${number:x}") if how < 0.2 else "0" * dice.choice([0, 0, 0, 0, 9]) + str(number)


def made(dice, names, nest, size):
    """The tokens of an expression of so many operands, or some more, that nests so deep at most."""
    how = dice.random()
    if size <= 1:
        if nest and how < 0.2:
            return ["-", *made(dice, names, nest - 1, 1)]
        if how < 0.6:
            return [number_word(dice)]
        return [in_case(dice, dice.choice(names))] + (["(", ")"] if nest and dice.random() < 0.3 else [])
    if nest and how < 0.2:
        return ["(", *made(dice, names, nest - 1, size), ")"]
    if nest and how < 0.45:
        word = dice.choice(["Abs", "Min", "Max"])
        parts = [made(dice, names, nest - 1, max(size // 2, 1)) for _ in range(1 if word == "Abs" else dice.choice((2, 2, 3, 4)))]
        return [in_case(dice, word), "(", *parts[0], *(token for part in parts[1:] for token in [",", *part]), ")"]
    if nest > 1 and how < 0.55:
        return ["-", "(", *made(dice, names, nest - 2, size), ")"]
    left = dice.randrange(1, size)
    return [*made(dice, names, nest, left), dice.choice("+-*/%+-"), *made(dice, names, nest, size - left)]


def deep(dice, found, depth):
    """The tokens so much deeper."""
    while depth:
        how = dice.randrange(4)
        if how == 0:
            found = ["(", *found, ")"]
        elif how == 1 and depth > 1:
            found, depth = ["-", "(", *found, ")"], depth - 1
        elif how == 2:
            found = ["Abs", "(", *found, ")"]
        elif dice.random() < 0.5:
            found = [dice.choice(["Min", "Max"]), "(", *found, ",", number_word(dice), ")"]
        else:
            found = [dice.choice(["Min", "Max"]), "(", number_word(dice), ",", *found, ")"]
        depth -= 1
    return found


BLANKS = [
    "", "", "", "", "", " ", " ", "  ", "\t", "\r", "/* 1 */", "/*\n)\"( */", "[* a [* ä *]\n*]", "/**/", " \\\n", "\\ \t\r\n",
    "\n\\", "# ( \"\n \t\\",
]
INSIDE = [*BLANKS, "\n", "\n", " # )\n", "\r\n"]
FIRST = [*BLANKS, "", "", "\n", "# 1 +\n", "\ufeff", "\n\n\t"]
LAST = [*BLANKS, "", "", "\n", "# 1", " \\", "\n# 1\n\n", "\n__END__\n) \"", "\\\n __END__ "]
# What makes expressions others, or none.
OTHERS = [
    "&&", "||", "!", "==", "<", ">=", "?", ":", "=", "++", ".", ".Abs", "\"a\"", "\"\"", "1.5", "0.5", "true", "no", "last",
    "c", "Sign", "AverageLuma", "YPlane", "UPlaneMean", "\n", "{", "}", "@", "\\", "[", "ü", "a=", "return", "global",
    "function", "9223372036854775808", "$10000000000000000", ",", "(", ")", "(", ")", "-", "+", "1", "Abs", "Min",
    "current_frame",
]


def broken(dice, found):
    """The tokens with one of them changed, put in, taken out, or moved, or without those from one on."""
    found, at, how = list(found), dice.randrange(len(found)), dice.randrange(6)
    if how == 0:
        found[at] = dice.choice(OTHERS)
    elif how < 3:
        found.insert(at, dice.choice(OTHERS))
    elif how == 3:
        del found[at]
    elif how == 4:
        other = dice.randrange(len(found))
        found[at], found[other] = found[other], found[at]
    else:
        del found[at + 1 :]
    return found


def text_of(dice, found):
    """The tokens as a text, with blanks and comments between them."""
    text, open_ones, plain = dice.choice(FIRST), 0, dice.random() < 0.4
    for n, token in enumerate(found):
        if n and not plain:
            text += dice.choice(INSIDE if open_ones else BLANKS)
        text += token
        open_ones += (token == "(") - (token == ")")
    return text + dice.choice(LAST)


def spoiled(dice, text):
    """The text with a letter put in or taken out."""
    at = dice.randrange(len(text) + 1)
    return text[:at] + (dice.choice("()*/+-%$#\\\n\"[]0aeM_,. ") if dice.random() < 0.5 else "") + text[at + dice.randrange(2) :]


def expression(dice, names):
    """A text at random, and whether it was made to be an expression."""
    nest = dice.choice([1, 2, 3, 4, 6])
    found = made(dice, names, nest, dice.choice([1, 2, 2, 3, 4, 5, 8, 12, 30]))
    if dice.random() < 0.1:
        found = deep(dice, found, dice.choice([DEEPEST - nest, DEEPEST - nest, DEEPEST - nest + 1, DEEPEST + 1]))
    how = dice.random()
    text = text_of(dice, broken(dice, found) if how < 0.25 else found)
    return spoiled(dice, text) if 0.25 <= how < 0.33 else text


def at_large(report, dice, folder, runs):
    """Expressions at random, over clips of several formats."""
    chosen = [("YV24", 8), ("Y8", 8), ("YV24", 10), ("Y8", 16), ("YV24", 16)]
    none = 0
    for n in range(-(-runs // BATCH)):
        kind, bits = chosen[n % len(chosen)]
        names = ["current_frame", "current_frame", *(name for name, (plane, _) in NAMES.items() if plane == 0 or kind != "Y8")]
        names += ["UPlaneMax"] if dice.random() < 0.1 else []
        t = contents(dice, kind, 3, 3, bits, 4)
        if n % 2:
            t = t.of(lambda frame: [[[x % 12 for x in row] for row in plane] for plane in frame])
        sources = [at_random(dice, kind, 3, 3, count, bits) for count in (6, 4, 5, 1, 9, 2, 4, 4)]
        rows = []
        for _ in range(min(BATCH, runs - n * BATCH)):
            text = expression(dice, names)
            if read(text, kind != "Y8") is None:
                none += 1
                test = "cdeh" if kind != "Y8" else "gij"
                fault(report, folder, BEFORE, dice.choice([*wrong_calls(dice, text, dice.choice(test))]), "BadExpression")
            else:
                rows += expression_rows(dice, text, t, *sources)
        if rows:
            before = put(folder, t=t, **{f"s{k}": clip for k, clip in enumerate(sources)})
            batch(report, folder, before, f"expressions over {kind} of {bits} bits", rows)
    return none


def main():
    parser = argparse.ArgumentParser(description=__doc__, formatter_class=argparse.RawDescriptionHelpFormatter)
    parser.add_argument("--runs", type=int, default=1000)
    parser.add_argument("--seed", type=int, default=1)
    options = parser.parse_args()
    if "AVSSERVE" not in os.environ:
        subprocess.run([os.path.join(ROOT, "build")], check=True)
    dice = random.Random(options.seed)
    report = Report()
    with tempfile.TemporaryDirectory() as folder:
        value_rows(report, dice, folder)
        wrong_rows(report, dice, folder)
        counts(report, dice, folder)
        numbers_of_frames(report, dice, folder)
        none = at_large(report, dice, folder, options.runs)
    print(f"choice: {report.runs} runs, {options.runs} expressions at random of which {none} are none, {report.wrong} wrong")
    return 1 if report.wrong else 0


if __name__ == "__main__":
    sys.exit(main())
