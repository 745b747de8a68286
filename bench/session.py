#!/usr/bin/env python3
"""What the frames of a session cost, beside a render by one worker of as many frames, into a pipe that cat reads.

    bench/session.py [--rounds N] [--small] [PROGRAM]

PROGRAM is bin/avsserve, which is built, where none is named. For each clip the frames are asked for in order and shuffled, by a
list as a file, and for the smallest one also each twice, where the second comes from the cache. It prints the median processor
time of the program and what it is by that of the render, whose runs alternate with those of the session; then the peak of
resident memory of sessions of many requests, with the bytes that each keeps. The files are made once, in avsserve-bench in
the temporary folder. --small does the same over fewer frames: it tries this script, and its figures mean nothing.
"""
import argparse, os, random, statistics, subprocess, tempfile

from workers import DATA, ROOT, stream

# Width and height of each clip, and its frames.
CLIPS = [(16, 16, 100_000), (640, 480, 1_000), (1920, 1080, 150)]
# The chain of the last sessions: each frame is made through ten filters.
TEN = "".join(f"{it}\n" for it in ["Invert", "FlipVertical", "Limiter", "FlipHorizontal", "Greyscale"] * 2)


def run(argv):
    """The processor time and the peak of resident memory, in KiB, of a command that writes into a pipe."""
    reader = subprocess.Popen(["cat"], stdin=subprocess.PIPE, stdout=subprocess.DEVNULL)
    writer = subprocess.Popen(argv, cwd=DATA, stdout=reader.stdin, stdin=subprocess.DEVNULL)
    reader.stdin.close()
    _, status, used = os.wait4(writer.pid, 0)
    reader.wait()
    if status != 0:
        raise SystemExit(f"{' '.join(argv)} ended with status {status}")
    return used.ru_utime + used.ru_stime, used.ru_maxrss


def write(name, text):
    with open(os.path.join(DATA, name), "w", encoding="ascii") as file:
        file.write(text)


def requests(name, numbers):
    write(name, "".join(f"frame {number}\n" for number in numbers))


def times(program, rounds, width, height, frames):
    stream(os.path.join(DATA, f"session-{width}x{height}-{frames}.y4m"), width, height, frames, 8)
    write("session.avs", f'Y4MSource("session-{width}x{height}-{frames}.y4m")\n')
    numbers = list(range(frames))
    requests("in-order.txt", numbers)
    requests("twice.txt", [number // 2 for number in range(frames)])
    random.Random(1).shuffle(numbers)
    requests("shuffled.txt", numbers)
    lists = ["in-order", "shuffled"] + (["twice"] if width == 16 else [])
    found = {what: [] for what in ["render", *lists]}
    for _ in range(rounds):
        found["render"].append(run([program, "render", "--plain", "session.avs"])[0])
        for what in lists:
            found[what].append(run([program, "session", "session.avs", f"{what}.txt"])[0])
    render = statistics.median(found["render"])
    for what in lists:
        took = statistics.median(found[what])
        print(f"{width}x{height} {frames} frames, {what}: {took:.2f} s, {took / render:.2f} of a render ({render:.2f} s)")


def memory(program, count):
    for what, script in (("a source", ""), ("ten filters", TEN)):
        write("session.avs", f'Y4MSource("session-memory.y4m")\n{script}')
        kept = []
        for requested in (count // 100, count):
            requests("many.txt", [number % 1_000 for number in range(requested)])
            kept.append(run([program, "session", "--cache", "1", "session.avs", "many.txt"])[1])
        each = (kept[1] - kept[0]) * 1024 / (count - count // 100)
        print(f"{count} requests through {what}: {kept[1] / 1024:.0f} MiB, {each:.0f} bytes a request")


def main():
    ask = argparse.ArgumentParser(description=__doc__.splitlines()[0])
    ask.add_argument("--rounds", type=int, default=5)
    ask.add_argument("--small", action="store_true")
    ask.add_argument("program", nargs="?")
    given = ask.parse_args()
    if given.program is None:
        subprocess.run([os.path.join(ROOT, "build")], check=True, stdout=subprocess.DEVNULL)
    program = os.path.abspath(given.program or os.path.join(ROOT, "bin", "avsserve"))
    os.makedirs(DATA, exist_ok=True)
    for width, height, frames in CLIPS:
        times(program, given.rounds, width, height, max(frames // 100, 10) if given.small else frames)
    stream(os.path.join(DATA, "session-memory.y4m"), 2, 2, 1_000, 8)
    memory(program, 10_000 if given.small else 1_000_000)


if __name__ == "__main__":
    main()
