#!/usr/bin/env python3
"""The measured figures of docs/benchmarks.md: avsserve beside cat and ffmpeg, on the same files in one run.

    bench/measure.py [--rounds N] [--small] [PROGRAM ..]

It builds bin/avsserve, unless the environment names a program as AVSSERVE, and measures it and each other PROGRAM (an earlier
build, say), and prints a line for each figure:

  copy     60 frames of 1920x1080 to a file: the median wall time, and the ratios to ffmpeg and cat
  cpu      the same to /dev/null: the median processor time, and the ratio to cat
  small    20,000 frames of 16x16 to /dev/null: the median wall time, and the ratio to ffmpeg
  sparse   a file of 5 GB with holes for its samples: the wall time until it is indexed
  memory   the peak of resident memory of the copy
  script   scripts of 1 MiB of several kinds: wall time and peak of resident memory until each is refused

The files are made once, in avsserve-bench in the temporary folder, and take 400 MB. Without ffmpeg its columns are empty.
--small does the same over few and small frames and short scripts, in a folder of its own: it tries this script, and its figures
mean nothing.
Other work on the machine disturbs the wall times: look at `uptime` before.
"""
import argparse, os, random, resource, shutil, statistics, subprocess, tempfile, time

ROOT = os.path.dirname(os.path.dirname(os.path.abspath(__file__)))
DATA = os.path.join(tempfile.gettempdir(), "avsserve-bench")


def stream(name, width, height, frames):
    """A stream of 4:2:0 whose samples are random."""
    path = os.path.join(DATA, name)
    if os.path.exists(path):
        return
    rng = random.Random(1)
    size = width * height * 3 // 2
    with open(path + ".part", "wb") as out:
        out.write(b"YUV4MPEG2 W%d H%d F25:1 Ip A1:1 C420jpeg\n" % (width, height))
        for _ in range(frames):
            out.write(b"FRAME\n" + rng.randbytes(size))
    os.rename(path + ".part", path)


def sparse(name, width, height, frames):
    """A stream whose samples are holes of the file, which ends one byte too soon."""
    path = os.path.join(DATA, name)
    if os.path.exists(path):
        return
    size = width * height * 3 // 2
    with open(path + ".part", "wb") as out:
        out.write(b"YUV4MPEG2 W%d H%d F25:1 Ip A1:1 C420jpeg\n" % (width, height))
        for _ in range(frames):
            out.write(b"FRAME\n")
            out.seek(size, os.SEEK_CUR)
        out.truncate(out.tell() - 1)
    os.rename(path + ".part", path)


def script(name, source):
    with open(os.path.join(DATA, name), "w") as out:
        out.write('Y4MSource("%s")\n' % source)


def run(argv, out, good=0):
    """The wall time and the processor time of one run."""
    before = resource.getrusage(resource.RUSAGE_CHILDREN)
    start = time.monotonic()
    with open(out, "wb") as sink:
        done = subprocess.run(argv, cwd=DATA, stdout=sink, stderr=subprocess.DEVNULL, stdin=subprocess.DEVNULL)
    took = time.monotonic() - start
    after = resource.getrusage(resource.RUSAGE_CHILDREN)
    if done.returncode != good:
        raise SystemExit("%s ended with status %d" % (" ".join(argv), done.returncode))
    return took, after.ru_utime + after.ru_stime - before.ru_utime - before.ru_stime


def medians(contenders, out, rounds, good=0):
    """The median wall and processor times of each contender, whose runs alternate."""
    times = {name: [] for name in contenders}
    for _ in range(rounds):
        for name, argv in contenders.items():
            times[name].append(run(argv, out, good))
    return {name: tuple(statistics.median(column) for column in zip(*rows)) for name, rows in times.items()}


def line(figure, found, column, unit, scale):
    peers = [name for name in ("cat", "ffmpeg") if name in found]
    for name, value in found.items():
        text = "%-7s %-44s %8.1f %s" % (figure, name, value[column] * scale, unit)
        if name not in peers:
            text += "".join("  %.2f of %s" % (value[column] / found[peer][column], peer) for peer in peers)
        print(text, flush=True)


def peak(argv):
    """The wall time of one run in milliseconds, and its peak of resident memory in MB."""
    probe = ("import resource, subprocess, sys, time\n"
             "start = time.monotonic()\n"
             "subprocess.run(sys.argv[1:], stdout=subprocess.DEVNULL, stderr=subprocess.DEVNULL)\n"
             "took = time.monotonic() - start\n"
             "print(took * 1000, resource.getrusage(resource.RUSAGE_CHILDREN).ru_maxrss / 1024)")
    done = subprocess.run(["python3", "-c", probe] + argv, cwd=DATA, stdout=subprocess.PIPE, check=True)
    return tuple(float(word) for word in done.stdout.split())


def scripts(size):
    """Scripts of so many bytes: what each repeats, with what is before and after."""
    for name, first, unit, last in (
            ("string", '"', "a", '"'), ("comment", "/*", "x", "*/"), ("newlines", "", "\n", ""), ("parentheses", "", "(", ""),
            ("operators", "1", "+1", ""), ("method calls", "a", ".f", ""), ("else if", "if(a){}\n", "else if(a){}\n", ""),
            ("arguments", "f(1", ",1", ")"), ("statements", "", "a\n", ""), ("blocks", "", "if(a){b}\n", "")):
        yield name, first + unit * ((size - len(first) - len(last)) // len(unit)) + last


def main():
    global DATA
    options = argparse.ArgumentParser(description=__doc__, formatter_class=argparse.RawDescriptionHelpFormatter)
    options.add_argument("--rounds", type=int, default=9)
    options.add_argument("--small", action="store_true")
    options.add_argument("programs", nargs="*", metavar="PROGRAM")
    options = options.parse_args()
    program = os.environ.get("AVSSERVE")
    if not program:
        subprocess.run([os.path.join(ROOT, "build")], check=True)
        program = os.path.join(ROOT, "bin", "avsserve")
    programs = [os.path.abspath(it) for it in [program] + options.programs]
    if options.small:
        with tempfile.TemporaryDirectory() as DATA:
            measure(programs, options.rounds, (64, 36, 20), 200, 100, 1 << 12)
    else:
        os.makedirs(DATA, exist_ok=True)
        measure(programs, options.rounds, (1920, 1080, 60), 20_000, 1_608, 1 << 20)


def measure(programs, rounds, copied, small, holes, script_size):
    """Prints each figure: over a clip of this width, height and length, so many small frames, frames of holes, and bytes of scripts."""
    width, height, frames = copied
    stream("copy.y4m", width, height, frames)
    stream("small.y4m", 16, 16, small)
    sparse("sparse.y4m", width, height, holes)
    for name in ("copy", "small", "sparse"):
        script(name + ".avs", name + ".y4m")

    def contenders(name, peers):
        found = {program: [program, "render", name + ".avs"] for program in programs}
        if "cat" in peers:
            found["cat"] = ["cat", name + ".y4m"]
        if "ffmpeg" in peers and shutil.which("ffmpeg"):
            found["ffmpeg"] = ["ffmpeg", "-nostdin", "-loglevel", "error", "-i", name + ".y4m", "-f", "yuv4mpegpipe",
                               "-pix_fmt", "yuv420p", "-y", "-"]
        return found

    line("copy", medians(contenders("copy", ("cat", "ffmpeg")), os.path.join(DATA, "out.y4m"), rounds), 0, "ms", 1000)
    line("cpu", medians(contenders("copy", ("cat",)), os.devnull, rounds), 1, "ms", 1000)
    line("small", medians(contenders("small", ("cat", "ffmpeg")), os.devnull, rounds), 0, "ms", 1000)
    line("sparse", medians(contenders("sparse", ()), os.devnull, 1, good=3), 0, "ms", 1000)
    for program in programs:
        print("%-7s %-44s %8.1f MB" % ("memory", program, peak([program, "render", "copy.avs"])[1]))
    for name, text in scripts(script_size):
        with open(os.path.join(DATA, "large.avs"), "w") as out:
            out.write(text)
        print("%-7s %-44s %8.1f ms %6.1f MB" % ("script", name, *peak([programs[0], "render", "large.avs"])))
    os.remove(os.path.join(DATA, "out.y4m"))


if __name__ == "__main__":
    main()
