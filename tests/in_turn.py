#!/usr/bin/env python3
"""Refuses each allocation, or each call of the system, of the program in turn, and looks at how each run ends.

    tests/in_turn.py memory|faults [--step N] [--jobs N] [--only CASE]

`memory` refuses each allocation of renders, of sessions, of replays, of `info` and of `selftest`, one in each run: the status is 0 or 6, or
that of a read that fails in the same run. With --step N it refuses every Nth one, and with --only CASE, as "info both.avs" or
"session both.avs -", those of that case alone. `faults` refuses each open, read, seek and write of renders, sessions and replays in turn,
and each thread, with pieces of one byte, so that every place of every file has its turn. Each run ends with the status and the
line that docs/manual/errors.md gives, has written the beginning of the right stream, in whole frames and answers but where the
write failed, and has closed what it opened.

How many runs there were of each case, and how they ended, is printed. A case in which no call was refused is wrong. The program
is built first, unless the environment names one as AVSSERVE; tests/refuse.c is built by gcc, and without that nothing is run.
"""

import argparse
import collections
import concurrent.futures
import os
import shutil
import subprocess
import sys
import tempfile

ROOT = os.path.dirname(os.path.dirname(os.path.abspath(__file__)))
PROGRAM = os.environ.get("AVSSERVE", os.path.join(ROOT, "bin", "avsserve"))
LINES = {1: "usage: ", 4: "read fault\n", 5: "write fault\n", 6: "no memory\n"}
# The allocations of a crew come in another order at each run, so a few numbers past the last one are tried too.
PAST = 4

HEAD = b"YUV4MPEG2 W1 H1 F25:1 Ip A1:1 Cmono\n"
M4 = HEAD + b"".join(b"FRAME\n" + bytes([n]) for n in range(4))


def clip(width, height, frames, seed):
    """A stream of 4:2:0 whose samples follow one another."""
    size = width * height * 3 // 2
    head = f"YUV4MPEG2 W{width} H{height} F25:1 Ip A1:1 C420jpeg\n".encode()
    return head + b"".join(b"FRAME\n" + bytes((seed + 7 * n + 3 * i) % 256 for i in range(size)) for n in range(frames))


# Every kind of statement, and every filter.
EVERY = r'''
function Shorter(clip c, int "by") { return c.Trim(0, end=c.FrameCount - 1 - Default(by, 1)) }
function Twice(val x) { if (IsInt(x)) { return x * 2 } else if (IsString(x)) { return x + x } else { return x ++ x } }
SetFilterMTMode("DEFAULT_MT_MODE", 2)
SetFilterMTMode("Invert", MT_SERIALIZED(), true)
global speed = 20 /* a global [* and *] comments */
a = Y4MSource("a.y4m")   # 8x4
b = Y4MSource("b.y4m")
while (speed < 25) { global speed = speed + 1 }
x = ""
for (i = 1, 5, 2) { x = x + String(i) }
Assert(x == "135" && Twice(x) == "135135" && Twice(2) == 4, "numbers")
Assert(StrLen(MidStr(UCase("abcd") + LCase("EF") + RevStr("xy"), 2, 3)) == 3 && FindStr("abc", "c") == 3)
Assert(Hex(HexValue("fF")) == "FF" && Value("12") == 12 && Ord(Chr(65)) == 65 && LeftStr("ab", 1) + RightStr("ab", 1) == "ab")
Assert(Max(1, 2, Abs(-3), Sign(4)) == 3 && Min(BitAnd(6, 3), BitOr(4, 1), BitXor(7, 2), BitNot(-9)) == 2 && Select(1, 2, 3) == 3)
Assert(IsBool(true) && IsClip(a) && Defined(x) && Nop() == 0 && a.PixelType() == "YV12" && a.IsYV12() && !a.IsY8())
c = Import("more.avs")
a
Crop(2, 2, -2, -0, true).AddBorders(2, 2, 2, 0, $102030).LetterBox(2, 2, 2, 2, $405060).CropBottom(0)
FlipHorizontal.FlipVertical.Turn180.TurnLeft.TurnRight.Greyscale.Invert("UV").Limiter(0, 255, 0, 255).SwapUV
d = YToUV(b.UToY8.StackHorizontal(b.VToY8).Crop(0, 0, 4, 2), b.VToY8.StackVertical(b.UToY8).Crop(0, 0, 4, 2), c.ConvertToY8)
Merge(last, b).MergeLuma(c).MergeChroma(d).TemporalSoften(1, 255, 255).GeneralConvolution(1, "1 2 1 2 4 2 1 2 1")
SelectEvery(2, 0, 1).Interleave(b.Reverse).SelectEven.DuplicateFrame(0, 1).DeleteFrame(1).FreezeFrame(0, 1, 2).Loop(2, 1, 2)
AssumeFPS(25).ChangeFPS(50).SelectOdd.ApplyRange(1, 2, "Invert", "Y").ApplyRange(0, 1, "Twice")
f = a.AssumeTFF.SeparateFields.ComplementParity.Weave.SwapFields.AssumeBFF
ConditionalSelect(last, "current_frame % 3 - YPlaneMin() / 300", f, b)
ConditionalFilter(f, last, b, "Abs(UPlaneMax - 9) / (current_frame - 1)", "GreaterThan", "Max(VPlaneMedian, 2) % $10")
e = BlankClip(last, length=2, color_yuv=$808080)
w = Merge(b.ConvertBits(10).TemporalSoften(1, 255, 255).FlipHorizontal, c.ConvertBits(10).Invert("Y").Limiter.SwapUV)
w = StackVertical(w.TurnLeft.TurnRight, w.Greyscale).Crop(0, 0, 0, 4).AddBorders(2, 0, 0, 0, $102030).LetterBox(0, 0, 2, 0)
w = w.Crop(2, 0, 8, 4).TemporalSoften(3, 20, 20).GeneralConvolution(1, "1 2 1 2 4 2 1 2 1").ConvertBits(8)
Assert(w.BitsPerComponent == 8 && w.Width == 8 && w.Height == 4)
last = Eval("last.Shorter(by = 1) ++ e") + c.AssumeFPS(last.FrameRateNumerator, last.FrameRateDenominator)
last = last + w.Trim(0, -1).AssumeFPS(last.FrameRateNumerator, last.FrameRateDenominator)
SizeOf = last.Width * last.Height
return SizeOf == 32 ? last.Prefetch(2, 3) : a
'''
MORE = 'c = Y4MSource("c.y4m")\nreturn c.Trim(0, -3)\n'
# Three sources, a merge, a splice and a soften.
THREE = '''a = Y4MSource("a.y4m")
b = Y4MSource("b.y4m").Reverse
c = Y4MSource("c.y4m")
(Merge(a, b) + c.TemporalSoften(1, 255, 255)).Prefetch(4, 3)
'''
# Requests of each kind. As a file they end with `quit`, and as standard input in the middle of a line.
LIST = b"frame 1\nframe 0\r\nframe 1\nframe 9999\nframe\ninfo\nframe 3\nframe 2"
FILES = {
    "m4.y4m": M4, "a.y4m": clip(8, 4, 4, 1), "b.y4m": clip(8, 4, 4, 60), "c.y4m": clip(8, 4, 4, 130),
    "twice.avs": b'c = Y4MSource("m4.y4m")\nMerge(c, c.Reverse)\n',
    "both.avs": b'a = Y4MSource("m4.y4m")\nb = Y4MSource("m4.y4m").Reverse\nInterleave(a, b).Prefetch(4)\n',
    "one.avs": b'Y4MSource("m4.y4m").Prefetch(1,2)\n',
    "every.avs": EVERY.encode(), "more.avs": MORE.encode(), "three.avs": THREE.encode(),
    "list.txt": LIST + b"\nquit\nframe 0\n",
}
RENDER, SESSION, REPLAY = "render", "session", "replay"
# What begins a line of a journal.
EVENTS = "workers window hit claim evict publish abandon enter leave take deliver fail".split()


class Case:
    """A run of the program, and what is refused beside the call that has its turn."""

    def __init__(self, words, also=""):
        self.words, self.also = words, also
        self.said = " ".join(words) + (f" with {also}" if also else "")

    def run(self, folder, refused="", piece=0):
        """The status, the stream, the line, and the counts of calls."""
        report = tempfile.mktemp(dir=folder)
        env = dict(os.environ, LD_PRELOAD=LIBRARY, REFUSE=",".join(x for x in (self.also, refused) if x))
        env.update(REFUSE_PIECE=str(piece), REFUSE_REPORT=report)
        how = {"cwd": folder, "env": env, "input": LIST if "-" in self.words else None, "timeout": 120}
        done = subprocess.run([PROGRAM, *self.words], capture_output=True, check=False, **how)
        counts = collections.Counter()
        with open(report, encoding="ascii") as lines:
            for line in lines:
                kind, number = line.split()
                counts[kind] = int(number)
        os.unlink(report)
        return done.returncode, done.stdout, done.stderr.decode(), counts


def frame_ends(stream):
    """Where the head and each frame of a stream end."""
    if not stream.startswith(b"YUV4MPEG2"):
        return [0, len(stream)]
    ends = [0, stream.index(b"\n") + 1]
    size = len(stream) - ends[1]
    words = stream[: ends[1]].split()
    width, height = int(words[1][1:]), int(words[2][1:])
    frame = 6 + {b"Cmono": width * height, b"C420jpeg": width * height * 3 // 2}[words[6]]
    return ends + [ends[1] + (n + 1) * frame for n in range(size // frame)]


def answer_ends(answers):
    """Where each answer of a session ends."""
    ends = [0]
    while ends[-1] < len(answers):
        line = answers[ends[-1] : answers.index(b"\n", ends[-1]) + 1]
        ends.append(ends[-1] + len(line) + (int(line.split()[2]) if line.startswith(b"frame ") else 0))
    return ends


def says(err, line):
    """Whether standard error has this line, and before it nothing but a report or a journal, perhaps cut short in a line."""
    told = err[: len(err) - len(line)].splitlines()
    return err.endswith(line) and all(" made " in it or it.split(" ")[0] in EVENTS or it is told[-1] for it in told)


def fault_of(ended, whole, statuses, ends, quiet):
    """What is wrong with a run, or None. Nothing comes on standard error after a write to it that failed, where it is to be quiet."""
    status, out, err, counts = ended
    if status not in statuses:
        return f"status {status}, {err!r}, not one of {sorted(statuses)}"
    if status == 0 and out != whole:
        return "status 0 without the whole stream"
    if status == 0 and not says(err, ""):
        return f"status 0 and a line {err!r}"
    if status and counts["say"] and err and not says(err, "" if quiet else LINES[status]):
        return f"status {status} and the line {err!r}"
    if quiet and err.endswith(LINES[5]):
        return f"the line {err!r} after a write that failed"
    if not whole.startswith(out):
        return f"{len(out)} bytes that are no beginning of the stream"
    if status != 5 and len(out) not in ends:
        return f"{len(out)} bytes, in the middle of a frame or an answer"
    if status and out == whole and out.endswith(b"bye\n"):
        return f"status {status} after the last answer"
    if counts["opened"] != counts["closed"]:
        return f"opened {counts['opened']}, closed {counts['closed']}"
    return None


class Tally:
    """How the runs of all cases ended."""

    def __init__(self, folder, jobs, only):
        self.folder, self.jobs, self.only, self.runs, self.wrong = folder, jobs, only, 0, 0

    def each(self, case, kind, statuses, step, piece):
        """Refuses each call of this kind in turn, as many as a run of the case makes."""
        if self.only not in (None, case.said):
            return
        status, whole, err, counts = Case(case.words).run(self.folder, piece=piece)
        if status != 0:
            raise SystemExit(f"in_turn: {case.said}: status {status}, {err!r}")
        ends = answer_ends(whole) if case.words[0] == SESSION else frame_ends(whole)
        if case.also:
            counts = case.run(self.folder, piece=piece)[3]
        numbers = [1, *range(step, counts[kind] + PAST + 1, step)]
        ways = collections.Counter()
        with concurrent.futures.ThreadPoolExecutor(self.jobs) as pool:
            runs = pool.map(lambda n: case.run(self.folder, f"{kind}:{n}", piece), numbers)
            for number, ended in zip(numbers, runs):
                self.runs += 1
                ways[ended[0]] += 1
                fault = fault_of(ended, whole, statuses, ends, kind == "say" and not case.also)
                if fault:
                    self.wrong += 1
                    print(f"in_turn: {case.said}: {kind} {number} refused: {fault}")
        said = ", ".join(f"{ways[status]} with status {status}" for status in sorted(ways))
        print(f"in_turn: {case.said}: {kind}: {len(numbers)} of {counts[kind]}: {said}")
        if kind != "thread" and ways[0] == len(numbers):
            self.wrong += 1
            print(f"in_turn: {case.said}: {kind}: none was refused")


def read_that_fails(folder):
    """The number of the read of one.avs that fails after two frames were written."""
    _, whole, _, counts = Case([RENDER, "one.avs"]).run(folder)
    two = len(HEAD) + 2 * 7
    for n in range(1, counts["read"] + 1):
        status, out, _, _ = Case([RENDER, "one.avs"]).run(folder, f"read:{n}")
        if status == 4 and out == whole[:two]:
            return n
    raise SystemExit("in_turn: no read of one.avs fails after two frames")


def memory(tally, step):
    """Refuses allocations."""
    cases = [Case([RENDER, "twice.avs", "--report", "--cache", cache]) for cache in ("1", "256")]
    cases += [Case([RENDER, "both.avs"]), Case([RENDER, "both.avs", "--plain"])]
    cases += [Case([RENDER, "every.avs", *more]) for more in (["--plain"], ["--threads", "3"], ["--cache", "1"])]
    cases += [Case(["info", name]) for name in ("every.avs", "both.avs")]
    cases += [Case([RENDER, "both.avs", "--journal"]), Case([REPLAY, "one.avs", "one.journal"])]
    cases += [Case([SESSION, "twice.avs", "list.txt", "--cache", cache]) for cache in ("1", "256")]
    cases += [Case([SESSION, "both.avs", "-"]), Case([SESSION, "every.avs", "list.txt"])]
    for case in cases:
        tally.each(case, "memory", {0, 6}, step, 0)
    read = f"read:{read_that_fails(tally.folder)}"
    for more in ([], ["--plain"]):
        tally.each(Case([RENDER, "one.avs", *more], read), "memory", {4, 6}, step, 0)
    # The last read of a session's clip fails after all answers but one. A read of the list follows it.
    session = [SESSION, "one.avs", "-", "--cache", "1"]
    read = f"read:{Case(session).run(tally.folder)[3]['read'] - 1}"
    tally.each(Case(session, read), "memory", {4, 6}, step, 0)
    tally.each(Case(["selftest", "7"]), "memory", {0, 6}, max(step, 16), 0)


def faults(tally, step):
    """Refuses calls of the system."""
    for more in (["--plain"], ["--threads", "4"], ["--threads", "4", "--cache", "1"]):
        case = Case([RENDER, "three.avs", *more])
        for kind, statuses, piece in (("open", {0, 4}, 0), ("seek", {0, 4}, 0), ("read", {0, 4}, 0), ("read", {0, 4}, 1),
                                      ("write", {0, 5}, 0), ("write", {0, 5}, 1), ("thread", {0}, 0)):
            tally.each(case, kind, statuses, step, piece)
        for told in ("--report", "--journal"):
            tally.each(Case([*case.words, told]), "say", {0, 5}, step, 0)
    for words in ([SESSION, "three.avs", "list.txt", "--cache", "1"], [SESSION, "twice.avs", "-"]):
        for kind, statuses, piece in (("open", {0, 4}, 0), ("seek", {0, 4}, 0), ("read", {0, 4}, 0), ("read", {0, 4}, 1),
                                      ("write", {0, 5}, 0), ("write", {0, 5}, 1)):
            tally.each(Case(words), kind, statuses, step, piece)
        tally.each(Case(words, "write:2"), "say", {5}, step, 0)
    replay = Case([REPLAY, "one.avs", "one.journal"])
    for kind, statuses, piece in (("open", {0, 4}, 0), ("read", {0, 4}, 0), ("read", {0, 4}, 1), ("write", {0, 5}, 0), ("write", {0, 5}, 1)):
        tally.each(replay, kind, statuses, step, piece)


def main():
    global LIBRARY
    parser = argparse.ArgumentParser(description=__doc__, formatter_class=argparse.RawDescriptionHelpFormatter)
    parser.add_argument("what", choices=["memory", "faults"])
    parser.add_argument("--step", type=int, default=1)
    parser.add_argument("--jobs", type=int, default=os.cpu_count())
    parser.add_argument("--only")
    options = parser.parse_args()
    if "AVSSERVE" not in os.environ:
        subprocess.run([os.path.join(ROOT, "build")], check=True, stdout=subprocess.DEVNULL)
    if not shutil.which("gcc"):
        print("in_turn: skipped, there is no gcc")
        return 0
    with tempfile.TemporaryDirectory() as folder:
        LIBRARY = os.path.join(folder, "refuse.so")
        made = ["gcc", "-O2", "-Wall", "-shared", "-fPIC", "-o", LIBRARY, os.path.join(ROOT, "tests", "refuse.c"), "-ldl"]
        subprocess.run(made, check=True)
        for name, data in FILES.items():
            with open(os.path.join(folder, name), "wb") as file:
                file.write(data)
        with open(os.path.join(folder, "one.journal"), "wb") as file:
            words = [PROGRAM, RENDER, "one.avs", "--journal"]
            subprocess.run(words, cwd=folder, stdout=subprocess.DEVNULL, stderr=file, check=True)
        tally = Tally(folder, options.jobs, options.only)
        {"memory": memory, "faults": faults}[options.what](tally, options.step)
    print(f"in_turn: {tally.runs} runs, {tally.wrong} wrong")
    return 1 if tally.wrong or not tally.runs else 0


LIBRARY = ""

if __name__ == "__main__":
    sys.exit(main())
