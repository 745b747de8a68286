#!/usr/bin/env python3
"""How many frames a second play in the page of tools/preview.py, and how long a seek takes, in a headless Chromium.

    bench/preview.py [--seconds S] [--seeks N] [--small]

Clips of 1280x720 and 1920x1080 in 4:2:0, which ffmpeg makes, play at 24 frames a second and at 120, where they come as fast as
they can, up to 60 on the screen. For each it prints the frames that were shown in a second, and the milliseconds of processor time
that one took in the program, in the preview and in the browser. Then it seeks to frames at random through seven filters at
1920x1080, half a second apart in the mean, and prints the median and the greatest time from the seek to the painted frame. The
browser has no graphics card: it makes the colours by its processor. --small does the same over small clips, for a moment: it tries
this script, and its figures mean nothing.
"""

import argparse
import os
import random
import statistics
import subprocess
import sys
import tempfile
import time

ROOT = os.path.dirname(os.path.dirname(os.path.abspath(__file__)))
sys.path.insert(0, os.path.join(ROOT, "tests"))
from browser import Browser  # noqa: E402

SEVEN = ('SetFilterMTMode("DEFAULT_MT_MODE", 2)\nY4MSource("%s")\nCrop(0, 132, 0, -132)\nAddBorders(0, 132, 0, 132)\n'
         'Limiter()\na = last\nMerge(a, a.FlipHorizontal)\nTemporalSoften(1, 8, 8)\nGreyscale\n')
TICKS = os.sysconf("SC_CLK_TCK")
SEEK = """new Promise(done => {
  const begun = performance.now(), seen = event => {
    if (event.detail !== %d) return;
    stage.removeEventListener("shown", seen);
    done(performance.now() - begun);
  };
  stage.addEventListener("shown", seen);
  seek(%d);
})"""


def children(process):
    """A process and all that it started."""
    made = [process]
    try:
        for task in os.listdir(f"/proc/{process}/task"):
            with open(f"/proc/{process}/task/{task}/children", encoding="ascii") as file:
                for it in file.read().split():
                    made += children(int(it))
    except FileNotFoundError:
        pass
    return made


def used(processes):
    """The seconds of processor time that these have used."""
    total = 0
    for it in processes:
        try:
            with open(f"/proc/{it}/stat", encoding="ascii") as file:
                total += sum(map(int, file.read().rsplit(")", 1)[1].split()[11:13]))
        except FileNotFoundError:
            pass
    return total / TICKS


class Preview:
    """The preview of a script, and a page that shows it."""

    def __init__(self, script):
        self.server = subprocess.Popen([sys.executable, os.path.join(ROOT, "tools", "preview.py"), "--no-browser", script],
                                       stdin=subprocess.DEVNULL, stdout=subprocess.PIPE, text=True)

    def __enter__(self):
        self.page = Browser(width=1400, height=900)
        self.page.open(self.server.stdout.readline().strip())
        self.page.until("view.seen === 0")
        return self

    def __exit__(self, *_):
        self.page.close()
        self.server.terminate()
        self.server.wait()

    def used(self):
        """The processor time of the program, the preview and the browser."""
        preview = children(self.server.pid)
        return [used(preview[1:]), used(preview[:1]), used(children(self.page.process.pid))]


def script(name, text):
    with open(name, "w", encoding="ascii") as file:
        file.write(text)
    return name


def play(name, clip, seconds):
    with Preview(script("play.avs", f'Y4MSource("{clip}")')) as preview:
        page = preview.page
        page.run("window.count = 0, stage.addEventListener('shown', () => { count++; }), 0")
        for rate in (24, 120):
            version = page.run("clips[0].version")
            script("play.avs", f'Y4MSource("{clip}").Loop(100).AssumeFPS({rate})')
            page.until(f"clips[0].version > {version} && clips[0].info && view.seen === view.n")
            page.run("seek(0)")
            page.key(" ")
            time.sleep(1)
            begun, before, count = time.monotonic(), preview.used(), page.run("count")
            time.sleep(seconds)
            shown, took = page.run("count") - count, time.monotonic() - begun
            costs = [1000 * (now - then) / max(shown, 1) for now, then in zip(preview.used(), before)]
            page.key(" ")
            print(f"{name} at {rate}: {shown / took:.1f} frames a second; a frame takes "
                  + ", ".join(f"{cost:.1f} ms in {it}" for cost, it in zip(costs, ("the program", "the preview", "the browser"))))


def seeks(name, clip, count):
    rng = random.Random(1)
    with Preview(script("seven.avs", SEVEN % clip)) as preview:
        page, times = preview.page, []
        last = page.run("lastFrame()")
        for _ in range(count):
            time.sleep(rng.random())
            n = rng.choice([it for it in range(last + 1) if it != page.run("view.n")])
            times.append(page.run(SEEK % (n, n)))
    print(f"{name}, {count} seeks through seven filters: median {statistics.median(times):.0f} ms, greatest {max(times):.0f} ms")


def main():
    options = argparse.ArgumentParser(description=__doc__, formatter_class=argparse.RawDescriptionHelpFormatter)
    options.add_argument("--seconds", type=float, default=10)
    options.add_argument("--seeks", type=int, default=200)
    options.add_argument("--small", action="store_true")
    asked = options.parse_args()
    if "AVSSERVE" not in os.environ:
        subprocess.run([os.path.join(ROOT, "build")], check=True, stdout=subprocess.DEVNULL)
    os.environ["AVSSERVE"] = os.path.abspath(os.environ.get("AVSSERVE", os.path.join(ROOT, "bin", "avsserve")))
    sizes, seconds, count = (["64x272", "96x272"], 1, 3) if asked.small else (["1280x720", "1920x1080"], asked.seconds, asked.seeks)
    with tempfile.TemporaryDirectory() as folder:
        os.chdir(folder)
        for size in sizes:
            subprocess.run(["ffmpeg", "-nostdin", "-v", "error", "-f", "lavfi", "-i", f"testsrc2=s={size}:r=24:d=10", "-pix_fmt", "yuv420p",
                            f"{size}.y4m"], check=True)
            play(size, f"{size}.y4m", seconds)
        seeks(sizes[-1], f"{sizes[-1]}.y4m", count)
        os.chdir(ROOT)


if __name__ == "__main__":
    main()
