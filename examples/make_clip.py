#!/usr/bin/env python3
"""Writes examples/clip.y4m: 24 frames of 48x36 in 4:2:0, in which a bright square crosses a slope of grey.

The left and right 4 columns and the top and bottom 2 rows are black, as in many captures.
"""

import os

WIDTH, HEIGHT, FRAMES, SQUARE = 48, 36, 24, 8
PATH = os.path.join(os.path.dirname(os.path.abspath(__file__)), "clip.y4m")


def luma(n, x, y):
    if not (4 <= x < WIDTH - 4 and 2 <= y < HEIGHT - 2):
        return 16
    if 4 + n <= x < 4 + n + SQUARE and 14 <= y < 14 + SQUARE:
        return 235
    return 40 + 3 * x


def chroma(n, x, y, base):
    inside = 2 <= x < WIDTH // 2 - 2 and 1 <= y < HEIGHT // 2 - 1
    return base + n if inside else 128


def frame(n):
    planes = [bytes(luma(n, x, y) for y in range(HEIGHT) for x in range(WIDTH))]
    for base in (104, 140):
        planes.append(bytes(chroma(n, x, y, base) for y in range(HEIGHT // 2) for x in range(WIDTH // 2)))
    return b"FRAME\n" + b"".join(planes)


if __name__ == "__main__":
    with open(PATH, "wb") as file:
        file.write(b"YUV4MPEG2 W%d H%d F25:1 Ip A1:1 C420jpeg\n" % (WIDTH, HEIGHT))
        file.writelines(frame(n) for n in range(FRAMES))
