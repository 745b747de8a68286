#!/usr/bin/env python3
"""Scripts and what becomes of them, by tables, through the built program: values, clips and the first fault with its line.

The program is built first, unless the environment names one as AVSSERVE.
"""

import os
import subprocess
import sys
import tempfile

ROOT = os.path.dirname(os.path.dirname(os.path.abspath(__file__)))
PROGRAM = os.environ.get("AVSSERVE", os.path.join(ROOT, "bin", "avsserve"))
# The least number, which no literal in decimal writes, and the greatest.
LEAST = "$8000000000000000"
GREATEST = "9223372036854775807"

# An expression, and its value as text, or its fault where the row says so.
VALUES = [
    ("007", "7"),
    ("2147483648", "2147483648"),
    (GREATEST, GREATEST),
    ("00009223372036854775807", GREATEST),
    ("$fF", "255"),
    ("$ffffffff", "4294967295"),
    ("$123456789", "4886718345"),
    ("$7FFFFFFFFFFFFFFF", GREATEST),
    (LEAST, "-9223372036854775808"),
    ("$FFFFFFFFFFFFFFFF", "-1"),
    ("$0000000000000001", "1"),
    ('""', ""),
    ('"1.5 \\ /* ü"', "1.5 \\ /* ü"),
    ('"""a "b" """', 'a "b" '),
    ('"a" + """"""', "a"),
    ("2 + 3", "5"),
    ('"ab" + "c"', "abc"),
    ("-7 / 2", "-3"),
    ("-7 % 2", "-1"),
    (f"{LEAST} % -1", "0"),
    ("2147483647 + 1", "2147483648"),
    (f"{GREATEST} - 1 + 1", GREATEST),
    (f"{LEAST} + {GREATEST}", "-1"),
    (f"-{GREATEST} - 1", "-9223372036854775808"),
    (f"{LEAST} + 1 - 1", "-9223372036854775808"),
    ("-3037000500 * 3037000499", "-9223372033963249500"),
    ("-4294967296 * 2147483648", "-9223372036854775808"),
    (f"{GREATEST} / -1", "-9223372036854775807"),
    (f"{LEAST} / 2", "-4611686018427387904"),
    (f"{GREATEST} % 10", "7"),
    (f"{LEAST} % 10", "-8"),
    (f"-(-{GREATEST})", GREATEST),
    (f"{LEAST} < {GREATEST} && {GREATEST} > 4294967296 && {LEAST} <= {LEAST}", "true"),
    (f"{LEAST} == {GREATEST}", "false"),
    ("1 == 4294967297", "false"),
    ("1 + 2 * 3 - 8 / 4", "5"),
    ("-(1 + 1) * -3", "6"),
    ("2 == 2", "true"),
    ('"Ab" == "aB"', "true"),
    ('"Ä" == "ä"', "false"),
    ("true == false", "false"),
    ('"Ab" != "aB"', "false"),
    ("-1 < 1 && 1 <= 1 && !(1 > 1) && 1 >= 1", "true"),
    ("false && (1 / 0 == 1)", "false"),
    ("true || (1 / 0 == 1)", "true"),
    ("false ? 1 / 0 : 2", "2"),
    ("-(5).Abs", "-5"),
    ("(-5).Abs", "5"),
    (f"Abs(-{GREATEST})", GREATEST),
    (f"Sign({LEAST})", "-1"),
    (f"Sign({GREATEST})", "1"),
    ("Sign(4294967296)", "1"),
    ("Sign(-9)", "-1"),
    ("Min(3, 1, 2)", "1"),
    ("Max(3, -1, 4, 2)", "4"),
    (f"Min(0, {LEAST}, {GREATEST})", "-9223372036854775808"),
    (f"Max(0, {LEAST}, {GREATEST})", GREATEST),
    ("BitAnd(12, -6)", "8"),
    ("BitOr(12, 10)", "14"),
    ("BitXor(12, 10)", "6"),
    ("BitNot(0)", "-1"),
    (f"BitAnd({LEAST}, -1)", "-9223372036854775808"),
    (f"BitOr({LEAST}, {GREATEST})", "-1"),
    (f"BitXor(-1, {LEAST})", GREATEST),
    (f"BitNot({LEAST})", GREATEST),
    ("BitAnd($F00000000, $FFFFFFFF00000000)", "64424509440"),
    ('Value("-9223372036854775808")', "-9223372036854775808"),
    ('Value("9223372036854775807")', GREATEST),
    ('Value("0000000000000000000000007")', "7"),
    ('HexValue("fF")', "255"),
    ('HexValue("80000000")', "2147483648"),
    ('HexValue("8000000000000000")', "-9223372036854775808"),
    ('HexValue("7fffffffffffffff")', GREATEST),
    ('HexValue("FFFFFFFFFFFFFFFF")', "-1"),
    ("HexValue(Hex(0 - 1)) == 0 - 1", "true"),
    ("Hex(0)", "0"),
    ("Hex(2748)", "ABC"),
    ("Hex(-1)", "FFFFFFFFFFFFFFFF"),
    ("Hex(4294967296)", "100000000"),
    (f"Hex({LEAST})", "8000000000000000"),
    (f"Hex({GREATEST})", "7FFFFFFFFFFFFFFF"),
    (f"String({LEAST})", "-9223372036854775808"),
    ("Nop", "0"),
    ("MT_NICE_FILTER() + MT_MULTI_INSTANCE() * 10 + MT_SERIALIZED() * 100", "321"),
    ('StrLen("aä€𝄞")', "4"),
    ('UCase("aZä1")', "AZä1"),
    ('LCase("aZÄ1")', "azÄ1"),
    ('RevStr("aä€𝄞")', "𝄞€äa"),
    ('LeftStr("äöü", 2)', "äö"),
    (f'LeftStr("äöü", {GREATEST})', "äöü"),
    ('RightStr("äöü", 2)', "öü"),
    (f'RightStr("äöü", {GREATEST})', "äöü"),
    ('MidStr("äöüß", 2)', "öüß"),
    ('MidStr("äöüß", 2, 2)', "öü"),
    ('MidStr("äöüß", 5, 2)', ""),
    ('MidStr("äöüß", 4294967297)', ""),
    (f'MidStr("äöüß", {GREATEST}, {GREATEST})', ""),
    ('FindStr("äöäöü", "öü")', "4"),
    ('FindStr("abc", "B")', "0"),
    ('FindStr("", "")', "1"),
    ("Chr(65)", "A"),
    ('Ord("€b")', "8364"),
    ('Select(1, "a", 7)', "7"),
    ("Default(0, 1)", "0"),
    ("Defined(0)", "true"),
    ("IsBool(false)", "true"),
    ("IsInt(false)", "false"),
    ('IsString("")', "true"),
    ("IsClip(BlankClip)", "true"),
    ("BlankClip(length=7).FrameCount", "7"),
    ("BlankClip.BitsPerComponent", "8"),
    ('BlankClip(pixel_type="Y16").BitsPerComponent + 1', "17"),
    ("BlankClip.ConvertBits(12).BitsPerComponent()", "12"),
    ("BlankClip.ConvertBits(12).PixelType", "YUV420P12"),
    ('BlankClip(pixel_type="Y10").IsY8', "false"),
    ('BlankClip(pixel_type="Y10").ConvertBits(8).IsY8', "true"),
    ('BlankClip(pixel_type="YUV444P14").IsYV24', "false"),
    ("blankclip(WIDTH=6, height=4).width", "6"),
    ('Eval("1 + 1")', "2"),
]
# The name of each format of more than 8 bits, which counts in any case of letters.
VALUES += [
    (f'BlankClip(pixel_type="{name.lower()}{bits}").PixelType', f"{name}{bits}")
    for name in ("Y", "YUV420P", "YUV422P", "YUV444P")
    for bits in (10, 12, 14, 16)
]
FAULTY_VALUES = [
    (f"{GREATEST} + 1", "Overflow"),
    (f"{LEAST} + -1", "Overflow"),
    (f"-{LEAST}", "Overflow"),
    (f"{LEAST} - 1", "Overflow"),
    (f"{GREATEST} - -1", "Overflow"),
    ("-3037000500 * 3037000500", "Overflow"),
    ("4294967296 * 2147483648", "Overflow"),
    (f"{LEAST} * -1", "Overflow"),
    (f"{LEAST} / -1", "Overflow"),
    (f"Abs({LEAST})", "Overflow"),
    ('Value("9223372036854775808")', "Overflow"),
    ('Value("-9223372036854775809")', "Overflow"),
    ('Value("99999999999999999999")', "Overflow"),
    ("7 / 0", "DivZero"),
    ("7 % 0", "DivZero"),
    ("true + 1 / 0", "DivZero"),
    ("true + true", "TypeFault"),
    ("-true", "TypeFault"),
    ("!1", "TypeFault"),
    ("1 == true", "TypeFault"),
    ('"a" < "b"', "TypeFault"),
    ("1 ? 2 : 3", "TypeFault"),
    ("String(BlankClip)", "TypeFault"),
    ('Value("99999999999999999999x")', "BadText"),
    ('Value("+7")', "BadText"),
    ('Value(" 7")', "BadText"),
    ('HexValue("00000000000000001")', "BadText"),
    ('HexValue("")', "BadText"),
    ('HexValue("$1")', "BadText"),
    ('Ord("")', "BadText"),
    ('LeftStr("äöü", -1)', "BadRange"),
    ('RightStr("äöü", -1)', "BadRange"),
    ('MidStr("äöüß", 0)', "BadRange"),
    ('MidStr("äöüß", 1, -1)', "BadRange"),
    ("Chr(0)", "BadRange"),
    ("Chr(128)", "BadRange"),
    ("Chr(4294967361)", "BadRange"),
    (f'LeftStr("äöü", {LEAST})', "BadRange"),
    (f'MidStr("äöüß", {LEAST})', "BadRange"),
    ('Select(2, "a", 7)', "BadRange"),
    ('Select(-1, "a")', "BadRange"),
    ('Select(4294967297, "a", 7)', "BadRange"),
    (f'Select({LEAST}, "a")', "BadRange"),
    ("BlankClip(length=2147483648)", "BadRange"),
    ("BlankClip(length=-2147483649)", "BadRange"),
    ('BlankClip(pixel_type="none", fps=4294967296)', "BadRange"),
    ("BlankClip(color_yuv=4294967296)", "BadRange"),
    ("BlankClip.BlankClip(width=4294967312)", "BadRange"),
    ("BlankClip.Trim(4294967296, 0)", "BadRange"),
    ("BlankClip.Trim(0, -4294967297)", "BadRange"),
    ("BlankClip.Trim(0, length=4294967297)", "BadRange"),
    ("BlankClip.Trim(0, end=4294967296)", "BadRange"),
    ("BlankClip.Trim(4294967296)", "NoMatch"),
    ("BlankClip.Trim(0, 4294967296, length=1)", "NoMatch"),
    ("BlankClip.Crop(0, 0, 4294967296, 4294967296)", "BadRange"),
    ("BlankClip.SelectEvery(4294967298, 0)", "BadRange"),
    ("BlankClip.SelectEvery(2, 0, 4294967296)", "BadRange"),
    ("BlankClip.DeleteFrame(0, 4294967297)", "BadRange"),
    ("BlankClip.Loop(4294967297)", "BadRange"),
    ("BlankClip.ChangeFPS(25, 4294967297)", "BadRange"),
    ('BlankClip.GeneralConvolution(4294967296, "x")', "BadRange"),
    ('BlankClip.ApplyRange(0, 4294967297, "Reverse")', "BadRange"),
    ('BlankClip.ApplyRange(-4294967296, 1, "NoSuchFilter")', "BadRange"),
    ('BlankClip.ApplyRange(0, 1, "NoSuchFilter")', "UnknownName"),
    ('BlankClip.ApplyRange(0, 1, "Trim", 4294967296, 0)', "BadRange"),
    ('SetFilterMTMode("Invert", 4294967297)', "ModeRefused"),
    (f'SetFilterMTMode("Invert", {LEAST})', "ModeRefused"),
    ("BlankClip.Prefetch(4294967297)", "PrefetchRange"),
    ("BlankClip.Prefetch(1, 4294967297)", "PrefetchRange"),
    (f"BlankClip.Prefetch({LEAST})", "PrefetchRange"),
    ("Max(1)", "NoMatch"),
    ("Max(1, true)", "NoMatch"),
    ('Assert(false, text="a")', "NoMatch"),
    ("Assert(false, 1)", "NoMatch"),
    ('Assert(message="a")', "NoMatch"),
    ('Assert(false, "a", message="a")', "NoMatch"),
    ("Trim", "NoMatch"),
    ("last", "UnknownName"),
    ("NoSuchFilter(1)", "UnknownName"),
]

# A script, the line of its fault, and the fault.
FAULTS = [
    ("", 1, "NotClip"),
    (" " * 1_048_576, 1, "NotClip"),
    (" " * 1_048_577, 0, "ScriptTooLong"),
    (b'Y4MSource("\xff")', 0, "NotUtf8"),
    ("x = 1.5", 1, "FloatLiteral"),
    ("1.", 1, "FloatLiteral"),
    ("5.Foo", 1, "FloatLiteral"),
    ("\na.5", 2, "FloatLiteral"),
    ("$12.5", 1, "FloatLiteral"),
    ("99999999999.5", 1, "FloatLiteral"),
    ("a\n\nb = 1.5\n@", 3, "FloatLiteral"),
    ("x = 9223372036854775807 + 1", 1, "Overflow"),
    ("x = 2147483647 + 1", 1, "NotClip"),
    ("BlankClip(length=4294967296)", 1, "BadRange"),
    ("x = 9223372036854775808", 1, "IntRange"),
    ("x = -9223372036854775808", 1, "IntRange"),
    ("18446744073709551616", 1, "IntRange"),
    ("$10000000000000000", 1, "IntRange"),
    ("$00000000000000001", 1, "IntRange"),
    ('"abc', 1, "OpenString"),
    ('\n"a\n\n', 2, "OpenString"),
    ('""" ""', 1, "OpenString"),
    ("/* a", 1, "OpenComment"),
    ("/*/", 1, "OpenComment"),
    ("\n[* a\n[* b *]", 2, "OpenComment"),
    ("a @ b", 1, "BadChar"),
    ("a\n\n ü", 3, "BadChar"),
    ("a\ufeff", 1, "BadChar"),
    ("[a", 1, "BadChar"),
    ("& &", 1, "BadChar"),
    ("|||", 1, "BadChar"),
    ("$g", 1, "BadChar"),
    ("a \\ # c\n", 1, "BadChar"),
    ("a \\\n \\ b", 2, "BadChar"),
    (")\n@", 2, "BadChar"),
    ("Y4MSource('m4.y4m')", 1, "BadChar"),
    ("x = (1 + )", 1, "Syntax"),
    ("a\n\nb c", 3, "Syntax"),
    ("a == b == c", 1, "Syntax"),
    ("f(1,\n2) 3", 2, "Syntax"),
    ("function F(float x) {}", 1, "Syntax"),
    ('function F(int "a", int b) {}', 1, "Syntax"),
    ("if (a) { function F() {} }", 1, "Syntax"),
    ('Y4MSource("m4.y4m"', 1, "Syntax"),
    ("a\nb\n" + "(" * 32, 3, "Syntax"),
    ("a\nb\n" + "(" * 33, 3, "NestLimit"),
    ("x = " + "(\n" * 33, 33, "NestLimit"),
    ("x = " + "-" * 33 + "1", 1, "NestLimit"),
    ("a ? b : " * 33 + "c", 1, "NestLimit"),
    ("a ? b : " * 32 + "c", 1, "UnknownName"),
    ("a = 1\nb", 2, "UnknownName"),
    ('Assert(1 == 3, "short")', 1, "AssertFailed: short"),
    ("Assert(false)", 1, "AssertFailed: Assert"),
    ('Assert(MESSAGE="a", false)', 1, "AssertFailed: a"),
    ("while (true) { x = 1 }", 1, "StepLimit"),
    ("for (i = 1, 2, 0) { }", 1, "BadRange"),
    ("for (i = 4294967296, 4294967297) { }\nAssert(false, String(i))", 2, "AssertFailed: 4294967298"),
    (f"for (i = {GREATEST} - 1, {GREATEST}) {{ }}\nAssert(false, String(i))", 2, f"AssertFailed: {GREATEST}"),
    (f"for (i = {LEAST} + 3, {LEAST}, -2) {{ }}\nAssert(false, String(i))", 2, "AssertFailed: -9223372036854775807"),
    (f"for (i = 1, {GREATEST}, {GREATEST}) {{ }}\nAssert(false, String(i))", 2, "AssertFailed: 1"),
    ("BlankClip(length=4)\nTrim(2,1)", 2, "BadRange"),
    ("BlankClip()\nif (true) {\nGeneralConvolution(256) }", 3, "BadRange"),
    ("BlankClip(width=1)", 1, "NotWholeChroma"),
    ("BlankClip(length=1000000).Loop(2)", 1, "LengthLimit"),
    ("function F() { return 1 }\nfunction f() { return 2 }", 2, "DuplicateFunction"),
    ('Import("none.avs")', 1, "NotThere"),
    ("function F(int n) { return n <= 0 ? 0 : 1 + F(n - 1) }\nBlankClip(length=F(64))", 1, "CallDepth"),
    ('SetFilterMTMode("x", 4)', 1, "ModeRefused"),
    ("BlankClip.Prefetch(17)", 1, "PrefetchRange"),
    ('BlankClip(length=4)\nApplyRange(1, 2, "Foo")', 2, "UnknownName"),
    ('BlankClip(length=4)\nConditionalSelect("YPlaneMax > 16", last)', 2, "BadExpression"),
    ('BlankClip(length=4)\n\nConditionalFilter(last, last, "1", "no",\n"true")', 3, "BadExpression"),
    ('BlankClip(pixel_type="Y10")\nApplyRange(1, 2, "ConditionalSelect", "UPlaneMin", last)', 2, "BadExpression"),
    ('s = "ä"\nfor (i = 1, 19) { s = s + s }\ns = s + "b"', 3, "TextLimit"),
    ("BlankClip\n" * 4_097, 4_097, "NodeLimit"),
    ("BlankClip" + ".Reverse" * 512, 1, "DepthLimit"),
]

# A script, the clip, and its number.
CLIPS = [
    ("BlankClip", "640x480 YV12 24:1 frames 240", 0),
    ("\ufeffBlankClip(length=1000000)", "640x480 YV12 24:1 frames 1000000", 0),
    ("BlankClip( \\\n  length=4 # rest\n)\n[* a [* b *] c *]\n__END__\nnonsense (", "640x480 YV12 24:1 frames 4", 0),
    ("BlankClip(length=4)\nBlankClip()", "640x480 YV12 24:1 frames 240", 1),
    (
        'function Cut(clip c, int "n") { return c.Trim(0, Default(n, 1)) }\nBlankClip(length=9).Cut(n=2)',
        "640x480 YV12 24:1 frames 3",
        1,
    ),
    ('function f(val "x") { return Defined(x) ? 2 : 3 }\nBlankClip(length=f)', "640x480 YV12 24:1 frames 3", 0),
    ('y = Import("lib.avs")\nBlankClip(length=Twice(x) + y)', "640x480 YV12 24:1 frames 9", 0),
    (
        "function F(int n) { if (n <= 0) { return 0 } else { return 1 + F(n - 1) } }\nBlankClip(length=F(63))",
        "640x480 YV12 24:1 frames 63",
        0,
    ),
    ("x = 0\nfor (i = 1, 9) { i = i + 1\nx = x + 1 }\nBlankClip(length=x)", "640x480 YV12 24:1 frames 5", 0),
    (
        f"x = 0\nfor (i = {GREATEST} - 2, {GREATEST}) {{ x = x + 1 }}\nBlankClip(length=x)",
        "640x480 YV12 24:1 frames 3",
        0,
    ),
    (
        f"x = 0\nfor (i = {LEAST} + 1, {LEAST}, -1) {{ x = x + 1 }}\nBlankClip(length=x)",
        "640x480 YV12 24:1 frames 2",
        0,
    ),
    ("Assert(HexValue(Hex(0 - 1)) == 0 - 1)\nBlankClip(length=4)", "640x480 YV12 24:1 frames 4", 0),
    ("BlankClip(length=8589934592 / 4294967296)", "640x480 YV12 24:1 frames 2", 0),
    ("Width = 4\nwIDTH = 5\nBlankClip(length=WIDTH)", "640x480 YV12 24:1 frames 5", 0),
    ('BlankClip(length=4)\nApplyRange(1, 2, "Invert", "Y")', "640x480 YV12 24:1 frames 4", 2),
    (
        'BlankClip(length=4)\nApplyRange(1, 2, "ApplyRange", 0, 3, "TemporalSoften", 1, 2, 3)',
        "640x480 YV12 24:1 frames 4",
        3,
    ),
    ("x = 1" + " + 1" * 10_000 + "\nBlankClip(length=x - 9999)", "640x480 YV12 24:1 frames 2", 0),
    ("if (false) {}" + " else if (false) {}" * 10_000 + " else { BlankClip }", "640x480 YV12 24:1 frames 240", 0),
    ("function f(int a, int b) { return a + b }\nx = (0)" + ".f(1)" * 10_000 + "\nBlankClip(length=x)", "640x480 YV12 24:1 frames 10000", 0),
    ("x = Max(1" + ", 1" * 10_000 + ")\nBlankClip(length=x)", "640x480 YV12 24:1 frames 1", 0),
    ("x = 1\n" * 10_000 + "BlankClip", "640x480 YV12 24:1 frames 240", 0),
    ("BlankClip\n" * 4_096, "640x480 YV12 24:1 frames 240", 4_095),
]
# All that info says.
INFOS = [
    (
        'SetFilterMTMode("FlipVertical", 3, true)\na = BlankClip(2, 8, 3, "YV16", 25)\nb = a.FlipVertical\nMerge(b, a).Prefetch(4)',
        "clip 8x3 YV16 25:1 frames 2\n0 BlankClip 1\n1 FlipVertical 3 0\n2 Merge 1 1 0\nroot 2\nprefetch 4 8\n",
    ),
    (
        'SetFilterMTMode("Crop", 2)\nSetFilterMTMode("TRIM", 2, true)\nSetFilterMTMode("Default_MT_Mode", 1)\n'
        'BlankClip(4, 8, 4).Crop(2, 0, 0, 0).Trim(1, 0).TemporalSoften(1, 2, 3)',
        "clip 6x4 YV12 24:1 frames 3\n0 BlankClip 1\n1 Crop 1 0\n2 Trim 2 1\n3 TemporalSoften 2 2\nroot 3\nprefetch 1 1\n",
    ),
    (
        'SetFilterMTMode("ConditionalSelect", 2, true)\na = BlankClip(2, 2, 2)\nb = a.Reverse\nc = ConditionalSelect(b, "7", b, a, b)\n'
        'ConditionalFilter(c, a, b, "1", "==", "1")',
        "clip 2x2 YV12 24:1 frames 2\n0 BlankClip 1\n1 Reverse 1 0\n2 ConditionalSelect 2 1 1 0 1\n3 ConditionalFilter 1 2 0 1\nroot 3\n"
        "prefetch 1 1\n",
    ),
]


class Runs:
    """Runs of the program in a folder, of which the wrong ones are counted and told."""

    def __init__(self, folder):
        self.folder, self.count, self.wrong = folder, 0, 0

    def run(self, command, script, *options):
        """The status of a run, and what is on both outputs."""
        with open(os.path.join(self.folder, "s.avs"), "wb") as file:
            file.write(script if isinstance(script, bytes) else script.encode())
        words = [PROGRAM, command, "s.avs", *options]
        done = subprocess.run(words, cwd=self.folder, capture_output=True, timeout=120, check=False)
        return done.returncode, done.stdout.decode(errors="replace"), done.stderr.decode(errors="replace")

    def compare(self, script, found, want):
        self.count += 1
        if found != want:
            self.wrong += 1
            print(f"{script[:200]!r}: {found!r:.300}; wanted {want!r:.300}")

    def has_fault(self, script, line, kind, name="s.avs"):
        want = (2, "", f"script fault: {name} line {line}: {kind}\n")
        self.compare(script, self.run("info", script), want)

    def has_clip(self, script, clip, root):
        status, text, said = self.run("info", script)
        lines = text.splitlines()
        first, last = (lines[0], lines[-2]) if len(lines) > 2 else ("", "")
        self.compare(script, (status, first, last, said), (0, f"clip {clip}", f"root {root}", ""))

    def tells(self, script, text):
        self.compare(script, self.run("info", script), (0, text, ""))

    def reports(self, nodes):
        """The last of many clips of one frame is rendered, and the report has a line for each."""
        script = 'BlankClip(1, 1, 1, "Y8")\n' * nodes
        lines = [f"{n} BlankClip made {int(n + 1 == nodes)} hit 0 evicted 0 entered 0\n" for n in range(nodes)]
        status, _, said = self.run("render", script, "--report")
        self.compare(script, (status, said), (0, "".join(lines)))


def main():
    if "AVSSERVE" not in os.environ:
        subprocess.run([os.path.join(ROOT, "build")], check=True)
    with tempfile.TemporaryDirectory() as folder:
        with open(os.path.join(folder, "lib.avs"), "w", encoding="utf-8") as file:
            file.write("function Twice(int n) { return n + n }\nx = 3\nx")
        runs = Runs(folder)
        for expression, value in VALUES:
            runs.has_fault(f"x = {expression}\nAssert(false, String(x))", 2, f"AssertFailed: {value}")
        for expression, fault in FAULTY_VALUES:
            runs.has_fault(f"x = 1\ny = {expression}", 2, fault)
        for script, line, kind in FAULTS:
            runs.has_fault(script, line, kind)
        runs.has_fault('Eval("x = ")', 1, "Syntax", "Eval")
        for script, clip, root in CLIPS:
            runs.has_clip(script, clip, root)
        for script, text in INFOS:
            runs.tells(script, text)
        runs.reports(600)
    print(f"scripts: {runs.count} runs, {runs.wrong} wrong")
    return 1 if runs.wrong else 0


if __name__ == "__main__":
    sys.exit(main())
