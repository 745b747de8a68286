#!/usr/bin/env python3
"""What `replay` costs: it checks printed journals of renders of 16x16, by 1 and by 16 workers, with caches of 1, 64 and 256.

    bench/replay.py [--rounds N] [--quick] [PROGRAM]

PROGRAM is bin/avsserve, which is built, where none is named. The journals have about 10,000, 100,000, 1,000,000 and 4,000,000
lines, or as many as 64 MiB hold. For each it prints the lines and the bytes; the median processor time of the plain render of
the same clip with --journal, into a pipe that cat reads, and of the replay; what the replay is by the render; the microseconds
a line of the fastest replay, without what a replay of one line takes; and the peak of resident memory. Then comes a text that
only claims frames, and at last what is asked beside what was found. The files are made in avsserve-bench in the temporary
folder. --quick does the same over short journals: it tries this script, and its figures mean nothing.
"""
import argparse, os, statistics, subprocess

from workers import DATA, ROOT, stream

LINES = [10_000, 100_000, 1_000_000, 4_000_000]
CACHES, WORKERS = [1, 64, 256], [1, 16]
MOST_BYTES = 67_108_864
FRAMES, MOST_FRAMES = 1_000, 1_000_000
# What is asked: a replay by the plain render, how far the times of a line may lie apart, and the memory.
MOST_RATIO, MOST_SPREAD, MOST_MEMORY = 3, 4 / 3, 10**9
SCRIPT = 'Y4MSource("replay.y4m").Loop(%d).Trim(0, -%d)\nTemporalSoften(1, 8, 8).Invert\nMerge(last, last.FlipVertical)\n'


def path(name):
    return os.path.join(DATA, name)


def run(argv, err=None):
    """The processor time and the peak of resident memory, in bytes, of a command that writes into a pipe, and into a file."""
    with open(path(err) if err else os.devnull, "wb") as file:
        reader = subprocess.Popen(["cat"], stdin=subprocess.PIPE, stdout=subprocess.DEVNULL)
        writer = subprocess.Popen(argv, cwd=DATA, stdout=reader.stdin, stderr=file, stdin=subprocess.DEVNULL)
        reader.stdin.close()
        _, status, used = os.wait4(writer.pid, 0)
        reader.wait()
    if status != 0:
        raise SystemExit(f"{' '.join(argv)} ended with status {status}")
    return used.ru_utime + used.ru_stime, used.ru_maxrss * 1024


def printed(program, at, workers, cache, frames):
    """Makes a script whose clip has so many frames, and its journal. The lines and the bytes of this."""
    with open(path(f"replay{at}.avs"), "w", encoding="ascii") as file:
        file.write(SCRIPT % (-(-frames // FRAMES), frames))
    words = ["--plain"] if workers == 1 else ["--threads", str(workers)]
    run([program, "render", f"replay{at}.avs", "--journal", "--cache", str(cache), *words], f"replay{at}.txt")
    # Bit by bit: a program that is started by a large one counts as large as that.
    with open(path(f"replay{at}.txt"), "rb") as file:
        lines = sum(piece.count(b"\n") for piece in iter(lambda: file.read(1 << 20), b""))
    return lines, os.path.getsize(path(f"replay{at}.txt"))


def printed_lines(program, at, workers, cache, wanted):
    """Makes a journal of about so many lines, or of as many bytes as there may be, which is one by the program."""
    frames = 200
    lines, size = printed(program, at, workers, cache, frames)
    for _ in range(3):
        frames = min(max(frames * wanted // lines, 1), MOST_FRAMES)
        lines, size = printed(program, at, workers, cache, frames)
        if size <= MOST_BYTES:
            break
        # A little less than what would fit, since each render by several workers prints another journal.
        wanted = int(lines * MOST_BYTES / size * 0.99)
    words = [program, "replay", f"replay{at}.avs", f"replay{at}.txt", "--cache", str(cache)]
    said = subprocess.run(words, cwd=DATA, stdout=subprocess.PIPE, check=True).stdout
    if said != b"run: %d lines\n" % lines:
        raise SystemExit(f"{workers} workers, cache {cache}: {said} of a journal of {lines} lines")
    return lines, size


def measured(program, workers, cache, lengths, rounds):
    """Prints a line for each length, and gives the figures of which something is asked. The runs of the lengths alternate."""
    sizes = [printed_lines(program, at, workers, cache, wanted) for at, wanted in enumerate(lengths)]
    with open(path("one.txt"), "w", encoding="ascii") as file:
        file.write("workers 1\n")
    found = [([], [], []) for _ in sizes]
    for _ in range(rounds):
        for at, (lines, _) in enumerate(sizes):
            words = ["--cache", str(cache), f"replay{at}.avs"]
            render, replay = ["render", "--journal", "--plain", *words], ["replay", *words]
            argvs = [render, [*replay, f"replay{at}.txt"], [*replay, "one.txt"]]
            # What is over soon is run more often.
            for _ in range(10 if lines < 200_000 and rounds > 1 else 1):
                for times, argv in zip(found[at], argvs):
                    times.append(run([program, *argv]))
    return [shown(workers, cache, *size, *runs) for size, runs in zip(sizes, found)]


def shown(workers, cache, lines, size, *runs):
    """Prints a line of the table."""
    render, replay, _ = (statistics.median(took for took, _ in times) for times in runs)
    _, fastest, start = (min(took for took, _ in times) for times in runs)
    memory, ratio, each = max(peak for _, peak in runs[1]), replay / render, (fastest - start) / lines * 1e6
    times = f"{render:8.3f} {replay:8.3f} {ratio:6.2f} {each:7.3f}"
    print(f"{workers:7} {cache:5} {lines:9} {size:9} {times} {memory / 2**20:7.0f}", flush=True)
    return ratio, each, memory


def hostile(program, most):
    """What a text takes that claims as many frames as it can: each of them is kept to its end."""
    with open(path("replay.avs"), "w", encoding="ascii") as file:
        file.write('Y4MSource("replay.y4m").Loop(1000)\nFlipVertical.Invert.Reverse.FlipHorizontal\n')
    lines = size = 0
    with open(path("replay.txt"), "w", encoding="ascii") as file:
        size = file.write("workers 1\nwindow 0 1\n")
        for at in range(5 * MOST_FRAMES):
            line = f"claim 0 {at % 5 + 1} {at // 5}\n"
            if size + len(line) > most:
                break
            size, lines = size + file.write(line), at + 3
    took, peak = run([program, "replay", "replay.avs", "replay.txt"])
    each = f"{took:.3f} s, {took / lines * 1e6:.3f} us/line"
    print(f"{lines} lines that only claim frames, {size} bytes: {each}, {peak / 2**20:.0f} MiB")
    return peak


def main():
    ask = argparse.ArgumentParser(description=__doc__.splitlines()[0])
    ask.add_argument("--rounds", type=int, default=3)
    ask.add_argument("--quick", action="store_true")
    ask.add_argument("program", nargs="?")
    given = ask.parse_args()
    if given.program is None:
        subprocess.run([os.path.join(ROOT, "build")], check=True, stdout=subprocess.DEVNULL)
    program = os.path.abspath(given.program or os.path.join(ROOT, "bin", "avsserve"))
    os.makedirs(DATA, exist_ok=True)
    stream(path("replay.y4m"), 16, 16, FRAMES, 8)
    print("workers cache     lines     bytes render s replay s  ratio us/line     MiB")
    figures = []
    for workers in WORKERS:
        for cache in CACHES:
            lengths = [1_000, 2_000] if given.quick else LINES
            ratios, each, peaks = zip(*measured(program, workers, cache, lengths, given.rounds))
            # Short runs may take no longer than the start, or even less.
            figures.append((max(ratios), max(each) / max(min(each), 0.01), max(peaks)))
    ratio, spread, memory = (max(column) for column in zip(*figures))
    memory = max(memory, hostile(program, 100_000 if given.quick else MOST_BYTES))
    print(f"a replay takes at most {ratio:.2f} of the plain render (asked: at most {MOST_RATIO})")
    print(f"a line takes at most {spread:.2f} of what it takes in another length (asked: at most {MOST_SPREAD:.2f})")
    print(f"it holds at most {memory / 2**20:.0f} MiB (asked: at most {MOST_MEMORY / 2**20:.0f})")


if __name__ == "__main__":
    main()
