#!/usr/bin/env python3
"""Runs `avsserve selftest` with the least and the greatest number, and compares each line with one that is computed here.

The input is 96 frames of 320x240 in 4:2:0. Its samples are the numbers x that follow one another from the given number,
the next being 1664525 * x + 1013904223 modulo 2^32, and a sample is x / 2^24 cut to a whole number. What the self test does
with them is written here a second time, plainly:

    a = Y4MSource("in.y4m")
    b = a.Reverse.FlipVertical
    c = Merge(a, b).Crop(8, 8, -8, -8)
    d = Interleave(c, b.Crop(8, 8, -8, -8).Invert("Y"))
    d.SelectEvery(3, 0, 2).Loop(4)

The program may use 80 MB of memory. It is built first, unless the environment names one as AVSSERVE.
"""

import hashlib
import os
import subprocess
import sys
import threading
import time

ROOT = os.path.dirname(os.path.dirname(os.path.abspath(__file__)))
PROGRAM = os.environ.get("AVSSERVE", os.path.join(ROOT, "bin", "avsserve"))
NUMBERS = [0, 4294967295]
MEMORY = 80_000_000
SECONDS = 300
FRAMES, WIDTH, HEIGHT, EDGE = 96, 320, 240, 8
NEGATIVE = bytes(255 - x for x in range(256))


def input_frames(number):
    """The frames of the input: Y, U and V, each a list of rows."""
    x = number
    for _ in range(FRAMES):
        planes = []
        for width, height in ((WIDTH, HEIGHT), (WIDTH // 2, HEIGHT // 2), (WIDTH // 2, HEIGHT // 2)):
            samples = bytearray(width * height)
            for place in range(width * height):
                x = (1664525 * x + 1013904223) & 0xFFFFFFFF
                samples[place] = x >> 24
            planes.append([bytes(samples[row : row + width]) for row in range(0, width * height, width)])
        yield planes


def merged(frame, other):
    """The averages, halves rounded up."""
    return [
        [bytes((x + y + 1) // 2 for x, y in zip(*rows)) for rows in zip(*planes)]
        for planes in zip(frame, other)
    ]


def cropped(frame):
    """The frame without its edges, which are half as wide in the chroma planes."""
    edges = (EDGE, EDGE // 2, EDGE // 2)
    return [[row[edge:-edge] for row in plane[edge:-edge]] for edge, plane in zip(edges, frame)]


def inverted(frame):
    return [[row.translate(NEGATIVE) for row in frame[0]], *frame[1:]]


def expected(number):
    """The line that the self test of this number is to print."""
    a = list(input_frames(number))
    b = [[plane[::-1] for plane in frame] for frame in reversed(a)]
    # of the frames 0, 1, 2, .. of d, the even ones are those of c, and the others those of b
    chosen = [place for place in range(2 * FRAMES) if place % 3 != 1]
    shown = []
    for place in chosen:
        n = place // 2
        frame = inverted(cropped(b[n])) if place % 2 else cropped(merged(a[n], b[n]))
        shown.append(b"FRAME\n" + b"".join(row for plane in frame for row in plane))
    # two clips in turn show twice as many frames a second, of which two of three are left: 25 * 2 * 2 / 3
    stream = [f"YUV4MPEG2 W{WIDTH - 2 * EDGE} H{HEIGHT - 2 * EDGE} F100:3 Ip A1:1 C420jpeg\n".encode(), *shown * 4]
    digest = hashlib.sha256()
    for piece in stream:
        digest.update(piece)
    return f"frames {4 * len(shown)} bytes {sum(map(len, stream))} sha256 {digest.hexdigest()}\n"


def run(number):
    """The status of the program's self test, what it wrote, its peak of memory in bytes, and its seconds."""
    start = time.monotonic()
    process = subprocess.Popen(
        [PROGRAM, "selftest", str(number)], stdin=subprocess.DEVNULL, stdout=subprocess.PIPE, stderr=subprocess.STDOUT
    )
    end = threading.Timer(SECONDS, process.kill)
    end.start()
    wrote = process.stdout.read().decode(errors="replace")
    _, status, used = os.wait4(process.pid, 0)
    end.cancel()
    process.stdout.close()
    process.returncode = -os.WTERMSIG(status) if os.WIFSIGNALED(status) else os.WEXITSTATUS(status)
    return process.returncode, wrote, used.ru_maxrss * 1024, time.monotonic() - start


def main():
    if "AVSSERVE" not in os.environ:
        subprocess.run([os.path.join(ROOT, "build")], check=True)
    # The runs come first: a process begins with the memory of the one that starts it, some 20 MB here, which counts in its
    # peak.
    runs = [(number, run(number)) for number in NUMBERS]
    wrong = 0
    for number, (status, wrote, memory, seconds) in runs:
        want = expected(number)
        if (status, wrote) != (0, want):
            wrong += 1
            print(f"self_test: selftest {number}: status {status}, {wrote!r}; wanted 0, {want!r}")
        if memory >= MEMORY:
            wrong += 1
            print(f"self_test: selftest {number}: {memory} bytes of memory; wanted less than {MEMORY}")
        print(f"self_test: selftest {number}: {seconds:.1f} s, {memory / 1e6:.0f} MB")
    print(f"self_test: {len(runs)} runs, {wrong} wrong")
    return 1 if wrong else 0


if __name__ == "__main__":
    sys.exit(main())
