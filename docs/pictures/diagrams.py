#!/usr/bin/env python3
"""Draws layers.svg, the crates of crates.txt by their groups, and window.svg, a window of eight frames with four workers.

    docs/pictures/diagrams.py [FOLDER]

They are drawn into FOLDER, or beside this script.
"""

import os
import sys
from xml.sax.saxutils import escape

HERE = os.path.dirname(os.path.abspath(__file__))
ROOT = os.path.dirname(os.path.dirname(HERE))
INTO = sys.argv[1] if len(sys.argv) > 1 else HERE
WIDTH, FONT = 900, "font-family='sans-serif' font-size='13'"
# The layers, the lowest first, each with the first crate of its groups in crates.txt.
LAYERS = [
    ("the outside", "fv_io self_test command_line"),
    ("frames and streams", "fv_rows fv_spares y4m_stream seq_source fv_session"),
    ("scripts as trees", "avs_lex lex_laws avs_values"),
    ("clips and filters", "clip_term mt_modes clip_reference"),
    ("what scripts mean", "avs_meaning row_laws meaning_laws avs_state"),
    ("the core", "frame_cache serve_machine turn_lock serve_core"),
    ("workers and windows", "serve_alone run_text"),
    ("the program", "serve_text prefetch serve_replay serve_app avsserve fv_real"),
]
FILLS = ["#eef3fb", "#ffffff"]


def groups():
    """The crates of crates.txt in lists, as comments part them."""
    found = []
    with open(os.path.join(ROOT, "crates.txt"), encoding="utf-8") as file:
        for line in file:
            if line.startswith("#"):
                found.append([])
            elif ":" in line:
                found[-1].append(line.split(":")[0].split()[0])
    return [[it for it in group if not it.endswith("_tests")] for group in found]


def text(x, y, words, more=""):
    return f"<text x='{x}' y='{y}' {FONT} {more}>{escape(words)}</text>"


def box(x, y, width, height, fill, more="stroke='#456'"):
    return f"<rect x='{x}' y='{y}' width='{width}' height='{height}' rx='3' fill='{fill}' {more}/>"


def write(name, height, parts):
    with open(os.path.join(INTO, name), "w", encoding="utf-8") as file:
        file.write(f"<svg xmlns='http://www.w3.org/2000/svg' width='{WIDTH}' height='{height}' viewBox='0 0 {WIDTH} {height}'>\n")
        file.write(box(0, 0, WIDTH, height, "#ffffff", "") + "\n" + "\n".join(parts) + "\n</svg>\n")


def layers():
    left = {group[0]: group for group in groups() if group}
    parts, y = [], 8
    for number, (title, firsts) in enumerate(reversed(LAYERS)):
        crates = [it for first in firsts.split() for it in left.pop(first)]
        x, row, places = 190, 0, []
        for crate in crates:
            wide = 8 * len(crate) + 18
            if x + wide > WIDTH - 10:
                x, row = 190, row + 1
            places.append((x, row, wide, crate))
            x += wide + 8
        height = 34 * (row + 1) + 8
        parts.append(box(4, y, WIDTH - 8, height, FILLS[number % 2], "stroke='#ccd'"))
        parts.append(text(16, y + 26, title, "font-weight='bold'"))
        for x, row, wide, crate in places:
            parts.append(box(x, y + 8 + 34 * row, wide, 26, "#ffffff"))
            parts.append(text(x + 8, y + 26 + 34 * row, crate))
        y += height + 4
    if left:
        raise SystemExit(f"diagrams: no layer has {sorted(left)}")
    parts.append(text(16, y + 14, "A layer stands on those below it, and uses them through their contracts alone.", "fill='#456'"))
    write("layers.svg", y + 24, parts)


TURN, READ, MAKE, WAIT, PUT = "#d9534f", "#b6d7a8", "#9fc5e8", "#eeeeee", "#f6d186"
NAMES = {
    TURN: "a turn at the lock: calls of the core", READ: "a frame of the file is read", MAKE: "a frame is made of it",
    WAIT: "waits", PUT: "the frames of the window before are written",
}


def schedule(workers, outputs):
    """What each worker does, as lists of a kind, its start, its length and its output: one has the core, one the source."""
    done, now = [[] for _ in range(workers)], [0] * workers
    lock = source = taken = 0
    stage = ["put"] + ["take"] * (workers - 1)
    mine = [0] * workers

    def add(worker, kind, start, long):
        if start > now[worker]:
            done[worker].append((WAIT, now[worker], start - now[worker], 0))
        done[worker].append((kind, start, long, mine[worker]))
        now[worker] = start + long

    def starts(worker):
        """When it can go on: the core has to be free, and to read the source too."""
        if stage[worker] == "put":
            return 0
        return max(now[worker], lock, source if stage[worker] == "take" else 0)

    while True:
        busy = [it for it in range(workers) if stage[it] != "take" or taken < outputs]
        if not busy:
            return done
        worker = min(busy, key=lambda it: (starts(it), now[it]))
        start = starts(worker)
        if stage[worker] == "put":
            add(worker, PUT, 0, 7)
            stage[worker] = "take"
            continue
        if stage[worker] == "take":
            mine[worker], taken = taken, taken + 1
            add(worker, TURN, start, 1)
            add(worker, READ, start + 1, 3)
            source, stage[worker] = start + 4, "publish"
        elif stage[worker] == "publish":
            add(worker, TURN, start, 1)
            add(worker, MAKE, start + 1, 9)
            stage[worker] = "deliver"
        else:
            add(worker, TURN, start, 1)
            stage[worker] = "take"
        lock = start + 1


def window():
    parts, left = [], 84
    parts.append(text(8, 20, "A window of eight frames with four workers, schematic: the time goes to the right.", "fill='#456'"))
    plans = schedule(4, 8)
    long_run = max(start + long for plan in plans for _, start, long, _ in plan)
    unit = (WIDTH - left - 12) // long_run
    for number, plan in enumerate(plans):
        y = 36 + 46 * number
        parts.append(text(8, y + 20, f"worker {number}", "font-weight='bold'"))
        for kind, start, long, output in plan:
            parts.append(box(left + start * unit, y, long * unit, 30, kind, "stroke='#ffffff'"))
            if kind == MAKE:
                parts.append(text(left + start * unit + 8, y + 20, f"frame {output}"))
    end = left + unit * long_run
    y = 36 + 46 * 4
    parts.append(f"<line x1='{end}' y1='30' x2='{end}' y2='{y}' stroke='#456' stroke-dasharray='4 3'/>")
    parts.append(text(end - 400, y + 12, "all eight are delivered: they are written with the next window", "fill='#456'"))
    x = 8
    for place, (kind, name) in enumerate(NAMES.items()):
        if place == 3:
            x, y = 8, y + 24
        parts.append(box(x, y + 30, 18, 14, kind, "stroke='#456'"))
        parts.append(text(x + 24, y + 42, name))
        x += 48 + 7 * len(name)
    write("window.svg", y + 56, parts)


if __name__ == "__main__":
    layers()
    window()
