#!/usr/bin/env python3
"""How long each filter takes, by one worker and by several: frames of 1920x1080 into a pipe, which cat reads.

    bench/workers.py [--frames N] [--size 1920x1080] [--rounds N] [--threads 1,2,3,4] [--bits 8] [--only NAME,..] [--busy N]
                     [PROGRAM]

PROGRAM is bin/avsserve, which is built, where none is named. For each script and each number of workers it prints the median
wall time, the processor time and the page faults of the program, and the first two also by what one worker took in the same
run; the runs of one script alternate. ffmpeg does the same where it is installed, with its threads. --bits B has samples of B
bits, 8 to 16. --busy N keeps N other processes busy meanwhile. --size says the size of the frames: at least 32x272, for what
the scripts crop, and at least 50 frames, for what they trim. The files are made once, in avsserve-bench in the temporary folder.
"""
import argparse, os, random, resource, shutil, statistics, subprocess, tempfile, time

ROOT = os.path.dirname(os.path.dirname(os.path.abspath(__file__)))
DATA = os.path.join(tempfile.gettempdir(), "avsserve-bench")
# Each script, and what ffmpeg is asked for.
SCRIPTS = {
    "copy": ('Y4MSource("%s")\n', []),
    "trim": ('Y4MSource("%s").Trim(10, 49)\n', ["-vf", "trim=start_frame=10:end_frame=50,setpts=PTS-STARTPTS"]),
    "flip": ('Y4MSource("%s").FlipVertical\n', ["-vf", "vflip"]),
    "mirror": ('Y4MSource("%s").FlipHorizontal\n', ["-vf", "hflip"]),
    "turn": ('Y4MSource("%s").TurnRight\n', ["-vf", "transpose=1"]),
    "crop": ('Y4MSource("%s").Crop(8, 132, -8, -132)\n', ["-vf", "crop=iw-16:ih-264:8:132"]),
    "borders": ('Y4MSource("%s").AddBorders(0, 132, 0, 132)\n', ["-vf", "pad=iw:ih+264:0:132"]),
    "invert": ('Y4MSource("%s").Invert\n', ["-vf", "negate"]),
    "limiter": ('Y4MSource("%s").Limiter\n', ["-vf", "limiter=16:235"]),
    "grey": ('Y4MSource("%s").Greyscale\n', ["-vf", "hue=s=0"]),
    "merge": ('a = Y4MSource("%s")\nMerge(a, a.FlipHorizontal)\n',
              ["-filter_complex", "[0]split[x][y];[y]hflip[z];[x][z]blend=all_mode=average"]),
    "soften": ('Y4MSource("%s").TemporalSoften(1, 255, 255)\n', ["-vf", "tmix=frames=3"]),
    "convolution": ('Y4MSource("%s").GeneralConvolution(0, "1 2 1 2 4 2 1 2 1")\n',
                    ["-vf", "convolution=" + ":".join(["1 2 1 2 4 2 1 2 1"] * 4 + ["1/16"] * 4)]),
    "stack": ('a = Y4MSource("%s")\nStackVertical(a, a.FlipVertical)\n',
              ["-filter_complex", "[0]split[x][y];[y]vflip[z];[x][z]vstack"]),
    "separate": ('Y4MSource("%s").SeparateFields\n', ["-vf", "separatefields"]),
    "weave": ('Y4MSource("%s").Weave\n', ["-vf", "weave"]),
    "swap": ('Y4MSource("%s").SwapFields\n', ["-vf", "il=ls=1:cs=1"]),
    # ffmpeg's signalstats makes more statistics than one.
    "greatest": ('a = Y4MSource("%s")\nConditionalSelect(a, "YPlaneMax", a)\n',
                 ["-vf", "signalstats,metadata=select:key=lavfi.signalstats.YMAX:value=0:function=greater"]),
    "median": ('a = Y4MSource("%s")\nConditionalSelect(a, "YPlaneMedian", a)\n',
               ["-vf", "signalstats,metadata=select:key=lavfi.signalstats.YAVG:value=0:function=greater"]),
    "script": ('SetFilterMTMode("DEFAULT_MT_MODE", 2)\nY4MSource("%s")\nCrop(0, 132, 0, -132)\nAddBorders(0, 132, 0, 132)\n'
               'Limiter()\na = last\nMerge(a, a.FlipHorizontal)\nTemporalSoften(1, 8, 8)\nGreyscale\n',
               ["-filter_complex", "[0]crop=iw:ih-264:0:132,pad=iw:ih+264:0:132,limiter=16:235,split[x][y];[y]hflip[z];"
                "[x][z]blend=all_mode=average,tmix=frames=3,hue=s=0"]),
}


def stream(path, width, height, frames, bits):
    """A stream of 4:2:0 whose samples are random."""
    if os.path.exists(path):
        return
    rng, count = random.Random(1), width * height * 3 // 2
    with open(path + ".part", "wb") as out:
        colour = b"420jpeg" if bits == 8 else b"420p%d" % bits
        out.write(b"YUV4MPEG2 W%d H%d F25:1 Ip A1:1 C%b\n" % (width, height, colour))
        for _ in range(frames):
            samples = rng.randbytes(count)
            if bits > 8:
                wide = bytearray(2 * count)
                wide[::2] = samples
                wide[1::2] = rng.randbytes(count).translate(bytes(byte & (1 << bits - 8) - 1 for byte in range(256)))
                samples = bytes(wide)
            out.write(b"FRAME\n" + samples)
    os.rename(path + ".part", path)


def run(argv):
    """The wall time, the processor time and the page faults of a command that writes into a pipe."""
    reader = subprocess.Popen(["cat"], stdin=subprocess.PIPE, stdout=subprocess.DEVNULL)
    start = time.monotonic()
    writer = subprocess.Popen(argv, cwd=DATA, stdout=reader.stdin, stderr=subprocess.DEVNULL, stdin=subprocess.DEVNULL)
    reader.stdin.close()
    _, status, used = os.wait4(writer.pid, 0)
    reader.wait()
    took = time.monotonic() - start
    if status != 0:
        raise SystemExit("%s ended with status %d" % (" ".join(argv), status))
    return took, used.ru_utime + used.ru_stime, used.ru_minflt


def main():
    options = argparse.ArgumentParser(description=__doc__, formatter_class=argparse.RawDescriptionHelpFormatter)
    options.add_argument("--frames", type=int, default=300)
    options.add_argument("--size", default="1920x1080")
    options.add_argument("--rounds", type=int, default=5)
    options.add_argument("--threads", default="1,2,3,4")
    options.add_argument("--bits", type=int, default=8)
    options.add_argument("--only", default="")
    options.add_argument("--busy", type=int, default=0)
    options.add_argument("program", nargs="?", metavar="PROGRAM")
    options = options.parse_args()
    if not options.program:
        subprocess.run([os.path.join(ROOT, "build")], check=True, stdout=subprocess.DEVNULL)
    program = os.path.abspath(options.program or os.path.join(ROOT, "bin", "avsserve"))
    os.makedirs(DATA, exist_ok=True)
    clip = "frames%d-%d-%s.y4m" % (options.frames, options.bits, options.size)
    stream(os.path.join(DATA, clip), *map(int, options.size.split("x")), options.frames, options.bits)
    pixels = "yuv420p" if options.bits == 8 else "yuv420p%dle" % options.bits
    others = [subprocess.Popen(["python3", "-c", "while True: pass"]) for _ in range(options.busy)]
    try:
        for name, (script, peer) in SCRIPTS.items():
            if options.only and name not in options.only.split(","):
                continue
            with open(os.path.join(DATA, "workers.avs"), "w") as out:
                out.write(script % clip)
            commands = {int(count): [program, "render", "workers.avs", "--threads", count] for count in options.threads.split(",")}
            if shutil.which("ffmpeg"):
                commands["ffmpeg"] = ["ffmpeg", "-nostdin", "-loglevel", "error", "-i", clip, *peer, "-f", "yuv4mpegpipe",
                                      "-strict", "-1", "-pix_fmt", pixels, "-y", "-"]
            found = {count: [] for count in commands}
            for _ in range(options.rounds):
                for count, argv in commands.items():
                    found[count].append(run(argv))
            middle = {count: [statistics.median(column) for column in zip(*rows)] for count, rows in found.items()}
            one = middle.get(1)
            for count, (wall, used, faults) in middle.items():
                beside = "  %.2f %.2f of one" % (wall / one[0], used / one[1]) if one else ""
                print("%-12s %-6s %6.2f s  processor %6.2f s  faults %7d%s" % (name, count, wall, used, faults, beside), flush=True)
    finally:
        for other in others:
            other.kill()


if __name__ == "__main__":
    main()
