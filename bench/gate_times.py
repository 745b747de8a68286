#!/usr/bin/env python3
"""Runs the gate, or another command, and prints the table of the dearest crates in docs/maintaining.md.

  bench/gate_times.py [--most N] COMMAND [ARGUMENT ..]

    bench/gate_times.py rt ci --anew

It looks at the system's processes every second, and adds up the processor time of the prover for each crate: its proof, and its
edits that must fail. What the kit has kept takes no time, so a table of all crates wants a run from nothing.
"""
import collections
import os
import subprocess
import sys
import time

TICK = os.sysconf("SC_CLK_TCK")


def text_of(path):
    """The text of a file of a process, or none where the process has ended."""
    try:
        with open(path, encoding="utf-8", errors="replace") as file:
            return file.read()
    except OSError:
        return ""


def look(taken):
    """Notes how much processor time each run of the prover has taken so far, by its process."""
    for pid in filter(str.isdigit, os.listdir("/proc")):
        words = text_of(f"/proc/{pid}/cmdline").split("\0")
        if not words[0].endswith("/rattle") or "--crate-name" not in words:
            continue
        crate = words[words.index("--crate-name") + 1]
        try:
            edit = "/rt-edit" in os.readlink(f"/proc/{pid}/cwd")
        except OSError:
            continue
        fields = text_of(f"/proc/{pid}/stat").rpartition(")")[2].split()
        if fields:
            taken[pid, crate, edit] = (int(fields[11]) + int(fields[12])) / TICK


def table(taken, most):
    """The dearest crates as rows of Markdown, in seconds."""
    crates = collections.defaultdict(lambda: [0.0, 0.0])
    for (_, crate, edit), seconds in taken.items():
        crates[crate][edit] += seconds
    yield "| Crate | Proof | Edits that must fail |"
    yield "|---|---|---|"
    for crate, (proof, edits) in sorted(crates.items(), key=lambda it: -it[1][0])[:most]:
        yield f"| `{crate}` | {proof:.0f} | {f'{edits:.0f}' if edits else 'none'} |"


def main():
    words = sys.argv[1:]
    most = 12
    if words[:1] == ["--most"]:
        most, words = int(words[1]), words[2:]
    if not words:
        sys.exit(__doc__)
    taken = {}
    begun = time.monotonic()
    gate = subprocess.Popen(words)
    while gate.poll() is None:
        look(taken)
        time.sleep(1)
    print("\n".join(table(taken, most)))
    print(f"{(time.monotonic() - begun) / 60:.0f} minutes, {sum(taken.values()) / 60:.0f} processor minutes")
    sys.exit(gate.returncode)


main()
