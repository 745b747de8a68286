#!/usr/bin/env python3
"""Shows where the time of a check goes: by kinds of parts, by functions, and part by part.

  bench/check_times.py CRATE [COUNT]

A check keeps each part of a function's proof in a file of crates/CRATE/out/incremental as soon as it is done. So after a
check from nothing with one job (rm -rf crates/CRATE/out/incremental, then rt check --jobs 1 in its folder) the times between
files are what the parts took. `Answers` are the goals that need an answer, `Lts` the steps of the code with the goals that the
prover finds by itself, `Tie` and `Proof` put them together, for a cycle of calls all its functions at once.
"""
import collections
import os
import sys


def parts(folder):
    """When each part was done, its name, and its size in bytes, in the order of time."""
    found = []
    for below, _, names in os.walk(folder):
        if not below.endswith("/records") and "/records/" not in below:
            for name in names:
                if name.endswith(".oantt"):
                    kept = os.stat(f"{below}/{name}")
                    found.append((kept.st_mtime, name.removesuffix(".oantt").removeprefix("Rattle-"), kept.st_size))
    return sorted(found)


def show(title, taken, size, count):
    print(title)
    for name, seconds in taken.most_common(count):
        print(f"{seconds:8.1f} {size[name] / 1e6:8.1f} MB  {name}")


def main(crate, count="30"):
    here = os.path.dirname(os.path.dirname(os.path.abspath(__file__)))
    found = parts(f"{here}/crates/{crate}/out/incremental")
    if not found:
        sys.exit(f"no kept work of {crate}: check it first")
    print(f"{found[-1][0] - found[0][0]:8.1f} s in {len(found)} parts")
    taken, size = {}, {}
    for what in ("kind", "function", "part"):
        taken[what], size[what] = collections.Counter(), collections.Counter()
    for (soon, _, _), (late, name, bytes_kept) in zip(found, found[1:]):
        function, _, kind = name.rpartition(".")
        for what, of in (("kind", kind.partition("-")[0]), ("function", function), ("part", name)):
            taken[what][of] += late - soon
            size[what][of] += bytes_kept
    show("By kind:", taken["kind"], size["kind"], 10)
    show("By function:", taken["function"], size["function"], int(count))
    show("By part:", taken["part"], size["part"], int(count))


if __name__ == "__main__":
    if not 2 <= len(sys.argv) <= 3:
        sys.exit(__doc__)
    main(*sys.argv[1:])
