#!/usr/bin/env python3
"""Renders clips at the limits of the program, and far past the sizes of other tests: many frames, filters, inputs and columns.

Each is rendered by one worker and, where it has no more than 200,000 frames, by several, with a small cache and a large one, and
compared with a stream that is computed here. One more than a limit is a fault with its name, and never `no memory`. Filters that
show a part of a picture share its samples, so that 500 of them over 12 MB fit into little memory. The program is built first,
unless the environment names one as AVSSERVE.
"""

import array
import os
import random
import resource
import subprocess
import sys
import tempfile
import time

ROOT = os.path.dirname(os.path.dirname(os.path.abspath(__file__)))
PROGRAM = os.environ.get("AVSSERVE", os.path.join(ROOT, "bin", "avsserve"))
SECONDS = 120
CREWS = (["--plain"], ["--threads", "4", "--cache", "256"], ["--threads", "16", "--cache", "1"])
# One sample a frame, of the number 7.
DOT = 'BlankClip(length={}, width=1, height=1, pixel_type="Y8", fps=25, color_yuv=$078080)'


def head(width, height):
    return f"YUV4MPEG2 W{width} H{height} F25:1 Ip A1:1 Cmono\n".encode()


def blank_head(width, height):
    """The head of a clip that BlankClip begins."""
    return f"YUV4MPEG2 W{width} H{height} F25:1 Ip A0:0 Cmono\n".encode()


def dots(frames, sample=7):
    return blank_head(1, 1) + (b"FRAME\n" + bytes([sample])) * frames


def chain(filters):
    """A source and so many filters, each on the one before."""
    return f'Y4MSource("four.y4m")\nfor (i = 1, {filters}) {{ FlipVertical }}\nlast'


def many(filters):
    """So many filters in all, of which the last one stands on the first."""
    return f'c = Y4MSource("four.y4m")\nfor (i = 2, {filters}) {{ c.Reverse }}\nlast'


def stacked(clips):
    return f'c = Y4MSource("four.y4m")\nStackVertical({", ".join(["c"] * clips)})'


FOUR = head(1, 1) + b"".join(b"FRAME\n" + bytes([n]) for n in range(4))
REVERSED = head(1, 1) + b"".join(b"FRAME\n" + bytes([n]) for n in reversed(range(4)))
# A row is longer than the pieces in which rows with gaps between them are put.
WIDE = 40_000
PIECE = 8_192


# Samples of two bytes are brought into range in pieces of this size, of so many rows of so many columns.
READ = 262_144
COLUMNS = 1_024
ROWS = READ // (2 * COLUMNS)


def deep(height, frames):
    """A stream of 10 bits."""
    return f"YUV4MPEG2 W{COLUMNS} H{height} F25:1 Ip A1:1 Cmono10\n".encode() + b"".join(
        b"FRAME\n" + array.array("H", samples).tobytes() for samples in frames)


def deep_frames(dice, height):
    """Frames of any samples, and of samples in range but for the first of each piece, the last of all, and none."""
    size = COLUMNS * height
    inside = [dice.randrange(1_024) for _ in range(size)]
    edges = [65_535 if n % (READ // 2) == 0 or n == size - 1 else sample for n, sample in enumerate(inside)]
    return [dice.randrange(65_536) for _ in range(size)], edges, inside


def stack_of(clips):
    return head(1, clips) + b"".join(b"FRAME\n" + bytes([n]) * clips for n in range(4))


def long_file(frames):
    return head(1, 1) + b"".join(b"FRAME\n" + bytes([n % 251]) for n in range(frames))


def rows(folder):
    """The cases: what they are, the script, and the stream, or the fault."""
    dice = random.Random(1)
    wide = [bytes(dice.randbytes(WIDE)) for _ in range(3)]
    for name, data in (
        ("four.y4m", FOUR), ("long.y4m", long_file(200_000)),
        ("wide.y4m", head(WIDE, 3) + b"FRAME\n" + b"".join(wide)),
    ):
        with open(os.path.join(folder, name), "wb") as file:
            file.write(data)

    for height in (ROWS - 1, ROWS, ROWS + 1, 3 * ROWS):
        frames = deep_frames(dice, height)
        with open(os.path.join(folder, f"deep{height}.y4m"), "wb") as file:
            file.write(deep(height, frames))
        limited = [[min(sample, 1_023) for sample in samples] for samples in frames]
        yield f"10 bits, {height} rows: brought into range", f'Y4MSource("deep{height}.y4m")', deep(height, limited)
        yield f"10 bits, {height} rows: read backwards", f'Y4MSource("deep{height}.y4m").Reverse', deep(height, limited[::-1])

    def of_wide(change, height=3):
        return head(WIDE, height) + b"FRAME\n" + b"".join(change)

    source = 'Y4MSource("wide.y4m")'
    negative = bytes(255 - x for x in range(256))
    yield "200,000 frames", DOT.format(200_000) + ".Invert", dots(200_000, 248)
    yield "1,000,000 frames", DOT.format(1_000_000), dots(1_000_000)
    yield "1,000,001 frames", DOT.format(1_000_001), "LengthLimit"
    yield "a file of 200,000 frames", 'Y4MSource("long.y4m").SelectEvery(1, 0)', long_file(200_000)
    yield "200,000 frames of 100", 'Y4MSource("long.y4m").Trim(0, 99).Loop(2000)', looped()
    yield "512 filters on one another", chain(511), FOUR
    yield "513 filters on one another", chain(512), "DepthLimit"
    yield "4,096 filters", many(4096), REVERSED
    yield "4,097 filters", many(4097), "NodeLimit"
    yield "128 inputs", stacked(128), stack_of(128)
    yield "1,000 inputs", stacked(1000), stack_of(1000)
    yield "wide: copied", source, of_wide(wide)
    yield "wide: turned over", source + ".FlipHorizontal", of_wide(row[::-1] for row in wide)
    yield "wide: upside down", source + ".FlipVertical", of_wide(reversed(wide))
    yield "wide: inverted", source + ".Invert", of_wide(row.translate(negative) for row in wide)
    yield "wide: there and back", source + ".TurnLeft.TurnRight.Turn180.Turn180", of_wide(wide)
    yield "wide: merged", f"c = {source}\nMerge(c, c.FlipVertical)", of_wide(averages(wide))
    yield "wide: convolved", source + '.GeneralConvolution(0, "0 0 0 0 1 0 0 0 0")', of_wide(wide)
    yield "wide: softened", source + ".Loop(9).TemporalSoften(7, 255, 255).Trim(4, 4)", of_wide(wide)
    yield "wide: limited", source + ".Limiter(0, 255)", of_wide(wide)
    yield "wide: cut and joined", f"c = {source}\nStackHorizontal(c.Crop(0, 0, 1, 0), c.Crop(1, 0, 0, 0))", of_wide(wide)
    for width in (WIDE - 1, PIECE + 1, PIECE):
        cut = [row[WIDE - width :] for row in wide]
        yield f"wide: cut to {width:,} columns", f"{source}.Crop({WIDE - width}, 0, 0, 0)", head(width, 3) + b"FRAME\n" + b"".join(cut)
    yield "wide: bordered", f"{source}.Crop(0, 1, 0, 1).AddBorders(0, 1, 0, 1, $AB8080)", of_wide(bordered(wide))


def looped():
    hundred = b"".join(b"FRAME\n" + bytes([n]) for n in range(100))
    return head(1, 1) + hundred * 2000


def averages(wide):
    return [bytes((x + y + 1) // 2 for x, y in zip(*pair)) for pair in zip(wide, reversed(wide))]


def bordered(wide):
    border = b"\xab" * WIDE
    return [border, wide[1], border]


def crews_for(wanted):
    """The words for the crews: a fault is the same for all, and many small frames take several workers long."""
    if not isinstance(wanted, bytes) or wanted.count(b"FRAME") > 200_000:
        return CREWS[:1]
    return CREWS[:2] if wanted.count(b"FRAME") > 1000 else CREWS


def fault_of(done, wanted):
    """What is wrong with a run, or None."""
    if isinstance(wanted, bytes):
        if done.returncode or done.stderr:
            return f"status {done.returncode}, {done.stderr!r}"
        return None if done.stdout == wanted else f"{len(done.stdout)} bytes, not the {len(wanted)} that are right"
    said = done.stderr.decode()
    right = done.returncode == 2 and not done.stdout and said.startswith("script fault: ") and said.endswith(f": {wanted}\n")
    return None if right else f"status {done.returncode}, {said!r}, not {wanted}"


def shared(folder):
    """What is wrong with renders of 500 filters, each of which shows a part of a picture of 12 MB or turns it over, in 400 MB."""
    def limited():
        resource.setrlimit(resource.RLIMIT_AS, (400 << 20, 400 << 20))

    with open(os.path.join(folder, "s.avs"), "w", encoding="ascii") as file:
        file.write('BlankClip(length=1, width=4000, height=3000, pixel_type="Y8", fps=25, color_yuv=$078080)\n')
        file.write("for (i = 1, 250) { Crop(1, 0, 0, 0).FlipVertical }\nlast")
    wanted = blank_head(3750, 3000) + b"FRAME\n" + bytes([7]) * (3750 * 3000)
    for crew in (["--plain", "--cache", "256"], ["--threads", "2", "--cache", "256"]):
        words = [PROGRAM, "render", "s.avs", *crew]
        done = subprocess.run(words, cwd=folder, capture_output=True, timeout=SECONDS, check=False, preexec_fn=limited)
        yield crew, fault_of(done, wanted)


def main():
    if "AVSSERVE" not in os.environ:
        subprocess.run([os.path.join(ROOT, "build")], check=True, stdout=subprocess.DEVNULL)
    runs = wrong = 0
    with tempfile.TemporaryDirectory() as folder:
        for what, script, wanted in rows(folder):
            with open(os.path.join(folder, "s.avs"), "w", encoding="ascii") as file:
                file.write(script)
            for crew in crews_for(wanted):
                begin = time.monotonic()
                words = [PROGRAM, "render", "s.avs", *crew]
                done = subprocess.run(words, cwd=folder, capture_output=True, timeout=SECONDS, check=False)
                fault = fault_of(done, wanted)
                runs += 1
                if fault:
                    wrong += 1
                    print(f"sizes: {what} {' '.join(crew)}: {fault}, after {time.monotonic() - begin:.1f} s")
        for crew, fault in shared(folder):
            runs += 1
            if fault:
                wrong += 1
                print(f"sizes: windows share their samples, {' '.join(crew)}: {fault}")
    print(f"sizes: {runs} runs, {wrong} wrong")
    return 1 if wrong else 0


if __name__ == "__main__":
    sys.exit(main())
