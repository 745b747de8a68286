#!/usr/bin/env python3
"""Renders random scripts by several workers and compares each stream with that of one worker.

    tests/workers.py [--runs N] [--seed S] [--seconds T]

The program is built first, unless the environment names one as AVSSERVE. A script has one to three sources, filters of every
group over them, some of them serialized or with an instance for each worker, and may ask for a crew with Prefetch. It is
rendered with --plain, and then by 2 to 16 workers, with a cache of 1 to 64 frames and windows of 1 to 32: the stream and the
status must be the same, and each render must end within its time. Some runs have a reader that closes the pipe early or a
source that was cut short, with workers in every call: they must end too, with the status and a prefix that are right.
"""

import argparse
import os
import random
import subprocess
import sys
import tempfile

ROOT = os.path.dirname(os.path.dirname(os.path.abspath(__file__)))
PROGRAM = os.environ.get("AVSSERVE", os.path.join(ROOT, "bin", "avsserve"))
# What changes a clip and keeps its size, with the name of its filter.
SAME_SIZE = [
    ("FlipVertical", "FlipVertical"), ("FlipHorizontal", "FlipHorizontal"), ("Turn180", "Turn180"), ("Reverse", "Reverse"),
    ("Invert", "Invert"), ("Limiter", "Limiter"), ("Greyscale", "Greyscale"), ("SwapUV", "SwapUV"),
    ("TemporalSoften(1, 8, 8)", "TemporalSoften"), ("TemporalSoften(3, 255, 255)", "TemporalSoften"),
    ('GeneralConvolution(0, "1 2 1 2 4 2 1 2 1")', "GeneralConvolution"),
    ("Crop(2, 2, -2, -2).AddBorders(2, 2, 2, 2)", "Crop"), ("SelectEvery(3, 0, 2)", "SelectEvery"), ("SelectOdd", "SelectOdd"),
    ("DuplicateFrame(0)", "DuplicateFrame"), ("FreezeFrame(0, 1, 0)", "FreezeFrame"), ("Loop(2)", "Loop"),
    ("ChangeFPS(30, 1)", "ChangeFPS"), ("DeleteFrame(0)", "DeleteFrame"),
    ("SeparateFields.Weave", "SeparateFields"), ("AssumeBFF.SeparateFields.Reverse.Weave", "Weave"),
    ("AssumeTFF.FlipVertical.SeparateFields.ComplementParity.Weave", "ComplementParity"), ("SwapFields", "SwapFields"),
    ("AssumeTFF.SeparateFields.Weave", "AssumeTFF"), ("AssumeBFF.Weave.SeparateFields", "AssumeBFF"),
    ('ConditionalSelect(last, "(YPlaneMin + current_frame) % 4", last.Reverse, last.Invert)', "ConditionalSelect"),
    ('ConditionalFilter(last.Reverse, last, last.FlipVertical, "UPlaneMedian", "<", "VPlaneMedian")', "ConditionalFilter"),
]
# What joins a clip with another.
JOINS = [
    ("Merge(last, {0})", "Merge"), ("Interleave(last, {0})", "Interleave"), ("MergeChroma(last, {0})", "MergeChroma"),
    ("last.Merge({0}.Reverse)", "Merge"), ("Interleave({0}, last, {0})", "Interleave"),
    ("last + {0}.AssumeFPS(25, 1)", "UnalignedSplice"),
    ('ConditionalSelect(last, "YPlaneMedian % 3 - current_frame / 8", {0}, {0}.Reverse)', "ConditionalSelect"),
    ('ConditionalFilter({0}, last, {0}, "10 / (current_frame % 5) + YPlaneMax", ">", "VPlaneMedian()")', "ConditionalFilter"),
]


def stream(rng, width, height, bits, frames):
    """A stream of 4:2:0 whose samples are chosen at random. Some of more than 8 bits are over the largest one."""
    size = width * height * 3 // 2 * (1 if bits == 8 else 2)
    name = "420jpeg" if bits == 8 else f"420p{bits}"
    head = f"YUV4MPEG2 W{width} H{height} F25:1 Ip A1:1 C{name}\n".encode()
    return head + b"".join(b"FRAME\n" + rng.randbytes(size) for _ in range(frames))


def script(rng):
    """The text of a script, the size and the bits of its clips, and the names of its sources with the numbers of their frames."""
    width, height, bits = rng.choice([(16, 16, 8), (32, 16, 8), (48, 32, 8), (32, 16, 10), (16, 16, 16)])
    sources = [(f"{name}.y4m", rng.randint(2, 12)) for name in "abc"[: rng.randint(1, 3)]]
    lines = [f'{name[0]} = Y4MSource("{name}")' for name, _ in sources]
    lines.append("a")
    used = []
    for _ in range(rng.randint(1, 8)):
        if rng.random() < 0.35:
            text, name = rng.choice(JOINS)
            other = rng.choice(sources)[0][0]
            lines.append(text.format(f"{other}.AssumeFPS(25, 1)") if "AssumeFPS" not in text else text.format(other))
            lines.insert(-1, "AssumeFPS(25, 1)")
        else:
            text, name = rng.choice(SAME_SIZE)
            lines.append(text)
        used.append(name)
    lines.append("Trim(0, 79)")
    modes = [f'SetFilterMTMode("{name}", {rng.randint(1, 3)}, true)' for name in set(used) if rng.random() < 0.6]
    if rng.random() < 0.5:
        modes.append(f'SetFilterMTMode("DEFAULT_MT_MODE", {rng.randint(1, 3)})')
    crew = rng.choice(["", f"Prefetch({rng.randint(1, 16)})", f"Prefetch({rng.randint(1, 16)}, {rng.randint(1, 32)})"])
    return "\n".join(modes + lines + [crew]) + "\n", (width, height, bits), sources


def run(words, folder, seconds):
    """The status and the stream, or None where the run took too long."""
    try:
        done = subprocess.run([PROGRAM, *words], cwd=folder, capture_output=True, timeout=seconds)
        return done.returncode, done.stdout, done.stderr
    except subprocess.TimeoutExpired:
        return None


def closed_early(words, folder, seconds, rng):
    """The status of a run whose reader closes the pipe after some bytes."""
    with subprocess.Popen([PROGRAM, *words], cwd=folder, stdout=subprocess.PIPE, stderr=subprocess.DEVNULL) as program:
        program.stdout.read(rng.randint(1, 3000))
        program.stdout.close()
        try:
            return program.wait(seconds)
        except subprocess.TimeoutExpired:
            program.kill()
            return None


def one(rng, folder, seconds):
    """What is wrong with a render of a random script by several workers, or None."""
    text, shape, sources = script(rng)
    for name, frames in sources:
        with open(os.path.join(folder, name), "wb") as file:
            file.write(stream(rng, *shape, frames))
    with open(os.path.join(folder, "s.avs"), "w") as file:
        file.write(text)
    plain = run(["render", "s.avs", "--plain"], folder, seconds)
    words = ["render", "s.avs", "--cache", str(rng.choice([1, 2, 3, 8, 64, rng.randint(1, 64)]))]
    if "Prefetch" not in text or rng.random() < 0.7:
        words += ["--threads", str(rng.randint(2, 16))]
    said = f"{' '.join(words)}\n{text}"
    if plain is None:
        return f"no end with --plain: {said}"
    kind = rng.random()
    if kind < 0.1:
        status = closed_early(words, folder, seconds, rng)
        return None if status in (0, 5) or status == plain[0] else f"status {status} where the pipe was closed: {said}"
    many = run(words, folder, seconds)
    if many is None:
        return f"no end: {said}"
    if many[:2] != plain[:2]:
        return f"status {many[0]} and {len(many[1])} bytes, not {plain[0]} and {len(plain[1])}: {said}"
    return None


def main():
    parser = argparse.ArgumentParser(description=__doc__, formatter_class=argparse.RawDescriptionHelpFormatter)
    parser.add_argument("--runs", type=int, default=200)
    parser.add_argument("--seed", type=int, default=1)
    parser.add_argument("--seconds", type=float, default=60)
    options = parser.parse_args()
    if "AVSSERVE" not in os.environ:
        subprocess.run([os.path.join(ROOT, "build")], check=True)
    wrong = 0
    with tempfile.TemporaryDirectory() as folder:
        for at in range(options.runs):
            fault = one(random.Random(f"{options.seed} {at}"), folder, options.seconds)
            if fault:
                wrong += 1
                print(f"workers: run {at}: {fault}")
    print(f"workers: {options.runs} runs, {wrong} wrong")
    return 1 if wrong else 0


if __name__ == "__main__":
    sys.exit(main())
