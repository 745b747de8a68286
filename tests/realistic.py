#!/usr/bin/env python3
"""Renders a script as people write them, over 48 frames of 1920x1080, and compares the stream with one that is computed here.

The script cuts black bars off and puts others in their place, limits the levels, merges the clip with its mirror image, softens
it in time and takes the colour out. Each plane of a frame of the input has one level, so that each frame of the output is
known: its rows between the bars have the level of its input, and the bars are black.

The program is built first, unless the environment names one as AVSSERVE.
"""

import os
import subprocess
import sys
import tempfile
import time

ROOT = os.path.dirname(os.path.dirname(os.path.abspath(__file__)))
PROGRAM = os.environ.get("AVSSERVE", os.path.join(ROOT, "bin", "avsserve"))
WIDTH, HEIGHT, FRAMES, BAR = 1920, 1080, 48, 132
HEAD = b"YUV4MPEG2 W1920 H1080 F24000:1001 Ip A1:1 C420mpeg2\n"
CHROMA = bytes([128]) * (WIDTH * HEIGHT // 2)
SCRIPT = """SetFilterMTMode("DEFAULT_MT_MODE", 2)
Y4MSource("clip.y4m")
Trim(0, 47)
Crop(0, 132, 0, -132)
AddBorders(0, 132, 0, 132)
Limiter()
a = last
b = a.FlipHorizontal
Merge(a, b)
TemporalSoften(1, 8, 8)
SelectEvery(2, 0, 1)
Greyscale
Prefetch(4)
"""


def levels(k):
    """The luma of frame k of the output."""
    bar = bytes([16]) * (WIDTH * BAR)
    return bar + bytes([16 + k]) * (WIDTH * (HEIGHT - 2 * BAR)) + bar


def main():
    if "AVSSERVE" not in os.environ:
        subprocess.run([os.path.join(ROOT, "build")], check=True)
    wrong = 0
    with tempfile.TemporaryDirectory() as folder:
        with open(os.path.join(folder, "clip.y4m"), "wb") as file:
            file.write(HEAD)
            for k in range(FRAMES):
                file.write(b"FRAME\n" + bytes([16 + k]) * (WIDTH * HEIGHT) + CHROMA)
        with open(os.path.join(folder, "s.avs"), "wb") as file:
            file.write(SCRIPT.replace("\n", "\r\n").encode())
        for words in (["render", "s.avs"], ["render", "s.avs", "--plain"]):
            began = time.time()
            with subprocess.Popen([PROGRAM, *words], cwd=folder, stdout=subprocess.PIPE) as program:
                same = program.stdout.read(len(HEAD)) == HEAD
                for k in range(FRAMES):
                    want = b"FRAME\n" + levels(k) + CHROMA
                    same = program.stdout.read(len(want)) == want and same
                same = program.stdout.read(1) == b"" and same
                status = program.wait()
            print(f"realistic: {' '.join(words)}: {time.time() - began:.1f} s, status {status}, {'right' if same else 'wrong'}")
            wrong += not same or status != 0
    return 1 if wrong else 0


if __name__ == "__main__":
    sys.exit(main())
