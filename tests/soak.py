#!/usr/bin/env python3
"""Renders random scripts by random crews for so many minutes, and watches the memory of a long render.

    tests/soak.py --minutes N [--frames F] [--seed S] [--jobs J]

Each run is one of tests/workers.py: a random script over random files, by 2 to 16 workers with a cache and a window at random,
against the stream of one worker. At the start, and again after every few minutes, a clip of F frames is rendered, 100,000
unless --frames says otherwise: its memory may grow from the first thousand frames to the last by what the journal of the render
holds, and not from one render to the next. Each of J jobs has one run at least. The program is built first, unless the
environment names one as AVSSERVE.
"""

import argparse
import concurrent.futures
import os
import random
import subprocess
import sys
import tempfile
import time

import workers

# What an event and a window of the journal take, with the room that a list keeps for more, in bytes.
EVENT, WINDOW = 2 * 48, 256
# What two renders of one clip may differ by, in bytes.
SLACK = 24 << 20
LONG = 'c = Y4MSource("long.y4m")\nMerge(c, c.Reverse).Invert.TemporalSoften(1, 255, 255)\nTrim(0, {})\n'
CREWS = (["--plain"], ["--threads", "4"], ["--threads", "16", "--cache", "8"])


def peak(folder, frames, crew):
    """The peak memory of a render in bytes, and what its journal may take."""
    with open(os.path.join(folder, "long.avs"), "w", encoding="ascii") as file:
        file.write(LONG.format(frames - 1))
    words = [workers.PROGRAM, "render", "long.avs", "--report", *crew]
    with subprocess.Popen(words, cwd=folder, stdout=subprocess.DEVNULL, stderr=subprocess.PIPE) as run:
        report = run.stderr.read().decode()
        _, status, used = os.wait4(run.pid, 0)
        run.returncode = os.waitstatus_to_exitcode(status)
    if run.returncode:
        raise SystemExit(f"soak: a long render ended with status {run.returncode}, {report!r}")
    events = 2 * frames
    for line in report.splitlines():
        count = dict(zip(line.split()[2::2], map(int, line.split()[3::2])))
        events += 2 * count["made"] + count["hit"] + count["evicted"] + 2 * count["entered"]
    return used.ru_maxrss * 1024, events * EVENT + frames * WINDOW


def long_renders(folder, frames, before):
    """What is wrong with the memory of renders of so many frames, beside that of earlier ones."""
    for crew in CREWS:
        short, _ = peak(folder, 1000, crew)
        whole, journal = peak(folder, frames, crew)
        said = " ".join(crew)
        print(f"soak: {frames} frames {said}: {whole >> 20} MB, of which the journal may have {journal >> 20}", flush=True)
        if whole > short + journal + SLACK:
            yield f"{said}: {whole} bytes, {short} for the first thousand frames and {journal} for the journal"
        if whole > before.setdefault(said, whole) + SLACK:
            yield f"{said}: {whole} bytes, and {before[said]} for the same clip before"


def main():
    parser = argparse.ArgumentParser(description=__doc__, formatter_class=argparse.RawDescriptionHelpFormatter)
    parser.add_argument("--minutes", type=float, required=True)
    parser.add_argument("--frames", type=int, default=100_000)
    parser.add_argument("--seed", type=int, default=int(time.time()))
    parser.add_argument("--jobs", type=int, default=max(1, os.cpu_count() // 2))
    options = parser.parse_args()
    if "AVSSERVE" not in os.environ:
        subprocess.run([os.path.join(workers.ROOT, "build")], check=True, stdout=subprocess.DEVNULL)
    print(f"soak: seed {options.seed}", flush=True)
    end, runs, wrong, before = time.monotonic() + 60 * options.minutes, 0, 0, {}

    def rounds(at):
        with tempfile.TemporaryDirectory() as folder:
            for n in range(100):
                if n and time.monotonic() > end:
                    return n, None
                fault = workers.one(random.Random(f"{options.seed} {at} {n}"), folder, 120)
                if fault:
                    return n + 1, f"run {at} {n}: {fault}"
        return 100, None

    with tempfile.TemporaryDirectory() as folder, concurrent.futures.ThreadPoolExecutor(options.jobs) as pool:
        with open(os.path.join(folder, "long.y4m"), "wb") as file:
            file.write(workers.stream(random.Random(options.seed), 16, 16, 8, options.frames))
        at = 0
        while time.monotonic() < end:
            faults = list(long_renders(folder, options.frames, before))
            some = time.monotonic() + 120
            while True:
                for count, fault in pool.map(rounds, range(at, at + options.jobs)):
                    runs += count
                    faults += [fault] if fault else []
                at += options.jobs
                if time.monotonic() > min(some, end):
                    break
            wrong += len(faults)
            for fault in faults:
                print(f"soak: {fault}", flush=True)
    print(f"soak: {runs} runs, {wrong} wrong")
    return 1 if wrong else 0


if __name__ == "__main__":
    sys.exit(main())
