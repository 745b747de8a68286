#!/usr/bin/env python3
"""Runs the client tools/avsserve.py over the program, and over programs in its place that die, stall, are slow or answer wrongly.

With the program: the samples of each format beside those of its render, any order, several threads, each error taken apart, and
PNG files beside colours that are computed here. With a stand-in: the error and its time, and that afterwards no process and no
open file is left. The program is built first, unless the environment names one as AVSSERVE.
"""

import faulthandler
import os
import random
import re
import struct
import subprocess
import sys
import tempfile
import threading
import time
import traceback
import zlib
from fractions import Fraction

ROOT = os.path.dirname(os.path.dirname(os.path.abspath(__file__)))
PROGRAM = os.path.abspath(os.environ.get("AVSSERVE", os.path.join(ROOT, "bin", "avsserve")))
TOOL = os.path.join(ROOT, "tools", "avsserve.py")
sys.path.insert(0, os.path.dirname(TOOL))
from avsserve import Session, png  # noqa: E402

SECONDS = 60
FORMATS = ["Y8", "YV12", "YV16", "YV24", "YV411"] + [
    name + bits for name in ("Y", "YUV420P", "YUV422P", "YUV444P") for bits in ("10", "12", "14", "16")]
TAGS = {"Y": "mono", "YV12": "420jpeg", "YV16": "422", "YV24": "444", "YV411": "411"}

# A program in the place of avsserve. It answers `info` and frames of 64x48 in YV12, 4,608 bytes, unless MODE says otherwise.
STAND_IN = r'''
import os, signal, subprocess, sys, time
mode = "MODE"
out, size = sys.stdout.buffer, 64 * 48 * 3 // 2
def put(data):
    out.write(data)
    out.flush()
def end(status, line):
    sys.stderr.write(line)
    sys.stderr.flush()
    os._exit(status)
def slowly(data, seconds):
    for at in range(0, len(data), 512):
        time.sleep(seconds)
        put(data[at : at + 512])
INFOS = {"nonsense": "hello", "no size": "clip 0x48 YV12 25:1 frames 9", "odd": "clip 63x48 YV12 25:1 frames 9",
         "no format": "clip 64x48 RGB24 25:1 frames 9", "no frames": "clip 64x48 YV12 25:1 frames 0",
         "no rate": "clip 64x48 YV12 25:0 frames 9"}
if mode == "dies at once":
    end(2, "script fault: s.avs line 7: UnknownName\n")
if mode == "ends at once":
    end(0, "")
if mode == "stalls at once":
    time.sleep(1000)
for line in sys.stdin:
    words = line.split()
    if words == ["quit"]:
        if mode == "stays":
            signal.signal(signal.SIGTERM, signal.SIG_IGN)
            time.sleep(1000)
        put(b"bye\n")
        os._exit(0)
    if words == ["info"]:
        put((INFOS.get(mode, "clip 64x48 YV12 25:1 frames 9") + "\n").encode())
        continue
    n = int(words[1])
    head, samples = b"frame %d %d\n" % (n, size), bytes([n]) * size
    if n == 0 or mode == "stays":
        put(head + samples)
    elif mode == "dies in a line":
        put(head[:5])
        end(3, "input fault: in.y4m: Changed 1 want 9 got 4\n")
    elif mode == "dies in samples":
        put(head + samples[:1000])
        end(3, "input fault: in.y4m: Changed 1 want 9 got 4\n")
    elif mode == "killed":
        put(head + samples[:1000])
        os.kill(os.getpid(), signal.SIGKILL)
    elif mode == "ends in samples":
        put(head + samples[:1000])
        end(0, "")
    elif mode == "no memory":
        end(6, "no memory\n")
    elif mode == "odd line":
        end(9, "Segfault or the like\n")
    elif mode == "leaves a child":
        put(head + samples[:1000])
        subprocess.Popen(["sleep", "LEFT"])
        end(3, "input fault: in.y4m: Changed 1 want 9 got 4\n")
    elif mode == "stalls":
        time.sleep(1000)
    elif mode == "stalls in samples":
        put(head + samples[:1000])
        time.sleep(1000)
    elif mode == "slow":
        slowly(head + samples, 0.03)
    elif mode == "too slow":
        slowly(head + samples, 0.4)
    elif mode == "another number":
        put(b"frame %d %d\n" % (n + 1, size) + samples)
    elif mode == "another length":
        put(b"frame %d %d\n" % (n, size + 1) + samples + b"\0")
    elif mode == "huge length":
        put(b"frame %d 99999999999\n" % n + samples)
    elif mode == "no number":
        put(b"frame x\n")
    elif mode == "bytes":
        put(b"\377\376\n")
    elif mode == "no end":
        put(b"x" * 100000)
    elif mode == "refuses":
        put(b"refused range\n" if n == 1 else head + samples)
    elif mode == "refuses the line":
        put(b"refused line\n")
    elif mode == "too much":
        put(head + samples + b"more")
    elif mode == "chatters":
        sys.stderr.write("chatter " * 200000)
        put(head + samples)
'''

wrong, count = [], 0


def same(what, found, wanted):
    global count
    count += 1
    if found != wanted:
        wrong.append(f"{what}: {str(found)[:500]}, wanted {str(wanted)[:500]}")


def error_of(call, *arguments):
    """The error that a call ends with, or what it gives."""
    try:
        return call(*arguments)
    except Exception as error:  # each kind is looked at
        return error


def parts(error):
    """The kind of an error, and what it tells apart."""
    names = {"ScriptError": ("name", "line", "kind", "text"), "InputError": ("name", "kind", "detail"), "Ended": ("status",),
             "RangeRefused": ("n", "frames")}.get(type(error).__name__, ())
    return (type(error).__name__,) + tuple(getattr(error, it) for it in names)


def write(name, text):
    with open(name, "wb") as file:
        file.write(text if isinstance(text, bytes) else text.encode())
    return name


def left_behind():
    """The open files and the children of this process."""
    children = []
    for task in os.listdir("/proc/self/task"):
        with open(f"/proc/self/task/{task}/children", encoding="ascii") as file:
            children += file.read().split()
    return len(os.listdir("/proc/self/fd")), children


def stream_of(name, width, height, frames):
    """A stream at random in a format."""
    kind, bits = re.fullmatch(r"(YV\d+|Y(?=\d)|YUV\d+P)(\d*)", name).groups()
    bits = int(bits or 8) if not kind.startswith("YV") else 8
    tag = TAGS.get(kind, kind[3:6]) + ("" if bits == 8 else f"p{bits}" if kind != "Y" else str(bits))
    across, down = {"Y": (0, 0), "YV12": (2, 2), "YV16": (2, 1), "YV24": (1, 1), "YV411": (4, 1), "YUV420P": (2, 2),
                    "YUV422P": (2, 1), "YUV444P": (1, 1)}[kind]
    size = width * height + (2 * (width // across) * (height // down) if across else 0)
    rng, made = random.Random(name), b"YUV4MPEG2 W%d H%d F30000:1001 Ip A1:1 C%b\n" % (width, height, tag.encode())
    for _ in range(frames):
        samples = [rng.randrange(1 << bits) for _ in range(size)]
        made += b"FRAME\n" + (bytes(samples) if bits == 8 else struct.pack(f"<{size}H", *samples))
    return made, (bits, across, down)


def check_formats():
    """The info, and each sample of each frame, of each format."""
    for name in FORMATS:
        made, (bits, across, down) = stream_of(name, 24, 10, 4)
        write("in.y4m", made)
        with Session(write("in.avs", 'Y4MSource("in.y4m")'), cache=2) as s:
            same(f"{name}: info", (s.info.width, s.info.height, s.info.format, s.info.bits, s.info.across, s.info.down),
                 (24, 10, name, bits, across, down))
            same(f"{name}: rate and frames", (s.info.rate, s.info.frames), (Fraction(30000, 1001), 4))
            size = 1 if bits == 8 else 2
            same(f"{name}: bytes", (s.info.sample_bytes, len(made) // 4 - s.info.frame_bytes < 40), (size, True))
            frames = made.split(b"\n", 1)[1]
            for n in (3, 0, 2, 2, 1):
                found = s.frame(n)
                at = n * (6 + s.info.frame_bytes) + 6
                same(f"{name}: frame {n}", bytes(found.data), frames[at : at + s.info.frame_bytes])
                check_planes(f"{name}: frame {n}", found, frames[at:], size)


def check_planes(what, frame, data, size):
    for plane, (width, height) in zip(frame.planes, frame.info.planes):
        samples = struct.unpack_from(f"<{width * height}{'BH'[size - 1]}", data)
        data = data[width * height * size :]
        same(f"{what}: a plane's sides", (plane.width, plane.height, plane.sample_bytes), (width, height, size))
        same(f"{what}: samples", tuple(plane.sample(x, y) for y in range(height) for x in range(width)), samples)
        same(f"{what}: rows", tuple(x for y in range(height) for x in plane.row(y)), samples)
        for x, y in ((-1, 0), (width, 0), (0, -1), (0, height)):
            same(f"{what}: sample {x} {y}", type(error_of(plane.sample, x, y)), IndexError)
        same(f"{what}: row {height}", type(error_of(plane.row, height)), IndexError)


def check_errors():
    """Each kind of error of the program, taken apart."""
    os.makedirs("a line 3: b", exist_ok=True)
    texts = [
        ("BlankClip\nFoo(1)\n", ("ScriptError", "e.avs", 2, "UnknownName", "")),
        ('Import("b.avs")', ("ScriptError", "b.avs", 3, "UnknownName", "")),
        ('Eval("x = ")', ("ScriptError", "Eval", 1, "Syntax", "")),
        ('\nAssert(false, "no: not line 3: Foo")', ("ScriptError", "e.avs", 2, "AssertFailed", "no: not line 3: Foo")),
        ('Assert(false, "a" + Chr(10) + "b")', ("ScriptError", "e.avs", 1, "AssertFailed", "a\nb")),
        ('Y4MSource("none: 1.y4m")', ("InputError", "none: 1.y4m", "NotThere", "")),
        ('Y4MSource("cut.y4m")', ("InputError", "cut.y4m", "Truncated", "1")),
        ('Y4MSource("/")', ("ReadFault",)),
    ]
    write("b.avs", "\n\nFoo\n")
    write("cut.y4m", b"YUV4MPEG2 W2 H2 Cmono\nFRAME\n1234FRAME\n12")
    for text, wanted in texts:
        same(f"error of {text!r}", parts(error_of(Session, write("e.avs", text))), wanted)
    odd = write("a line 3: b/s.avs", "Foo")
    same("error of an odd name", parts(error_of(Session, odd)), ("ScriptError", odd, 1, "UnknownName", ""))
    same("no script", parts(error_of(Session, "none.avs")), ("ScriptError", "none.avs", 0, "NotThere", ""))
    same("cache of 0", parts(error_of(Session, odd, 0)), ("Ended", 1))
    same("a file that becomes shorter", shortened(), ("InputError", "short.y4m", "Changed", "2 want 3000046 got 20000"))
    with Session(write("e.avs", "BlankClip(length=5, width=8, height=8)")) as s:
        for n in (-1, 5, 4294967296, 10**20):
            same(f"frame {n} of 5", parts(error_of(s.frame, n)), ("RangeRefused", n, 5))
        same("RangeRefused is an IndexError", isinstance(error_of(s.frame, 9), IndexError), True)
        same("a frame after refusals", s.frame(4).planes[0].sample(0, 0), 16)
    same("a frame after the end", parts(error_of(s.frame, 0)), ("Closed",))
    s.close()
    for program in ("none", "/"):
        same(f"program {program}", parts(error_of(lambda it: Session("e.avs", program=it), program)), ("NoProgram",))


def shortened():
    """The error where a file is cut while it is open."""
    write("short.y4m", b"YUV4MPEG2 W1000 H1000 Cmono\n" + 3 * (b"FRAME\n" + bytes(10**6)))
    with Session(write("short.avs", 'Y4MSource("short.y4m")')) as s:
        os.truncate("short.y4m", 20000)
        error = error_of(s.frame, 2)
        same("the same error again", error_of(s.frame, 0), error)
    return parts(error)


def check_threads():
    """Eight threads ask one session, and each gets what it asked."""
    write("t.y4m", b"YUV4MPEG2 W64 H64 F25:1 Cmono\n" + b"".join(b"FRAME\n" + bytes([n]) * 4096 for n in range(256)))
    found = []
    with Session(write("t.avs", 'Y4MSource("t.y4m").FlipVertical'), cache=4) as s:
        def ask(seed):
            rng = random.Random(seed)
            for _ in range(60):
                n = rng.randrange(256)
                found.append(bytes(s.frame(n).data) == bytes([n]) * 4096)
        run_all([threading.Thread(target=ask, args=(it,), daemon=True) for it in range(8)])
    same("frames of several threads", (len(found), all(found)), (480, True))


def run_all(threads):
    for it in threads:
        it.start()
    for it in threads:
        it.join(SECONDS)
    same("threads that didn't end", [it for it in threads if it.is_alive()], [])


def stand_in(mode):
    """A program that behaves as `mode` says, and its script."""
    code = STAND_IN.replace("MODE", mode).replace("LEFT", "7")
    write("stand_in", f"#!{sys.executable} -u\n" + code)
    os.chmod("stand_in", 0o755)
    return os.path.abspath("stand_in")


CHANGED = ("InputError", "in.y4m", "Changed", "1 want 9 got 4")
BAD, LATE = ("BadAnswer",), ("TimedOut",)
# What opening a session gives with a stand-in, or its frame 1.
ENDS = [("dies at once", ("ScriptError", "s.avs", 7, "UnknownName", "")), ("ends at once", ("Ended", 0)), ("stalls at once", LATE),
        ("nonsense", BAD), ("no size", BAD), ("odd", BAD), ("no format", BAD), ("no frames", BAD), ("no rate", BAD)]
FRAMES = [("dies in a line", CHANGED), ("dies in samples", CHANGED), ("killed", ("Ended", -9)), ("ends in samples", ("Ended", 0)),
          ("no memory", ("NoMemory",)), ("odd line", ("Ended", 9)), ("leaves a child", LATE), ("stalls", LATE),
          ("stalls in samples", LATE), ("too slow", LATE), ("another number", BAD), ("another length", BAD), ("huge length", BAD),
          ("no number", BAD), ("bytes", BAD), ("no end", BAD), ("refuses the line", BAD)]
GOOD = ["slow", "chatters"]


def timed(what, call, *arguments):
    """What a call gives, which comes long before the programs that stall would go on."""
    begun = time.monotonic()
    found = error_of(call, *arguments)
    same(f"{what}: in time", time.monotonic() - begun < SECONDS / 2, True)
    return found


def check_stand_ins():
    for mode, wanted in ENDS:
        before = left_behind()
        limit = 1 if wanted == LATE else SECONDS
        same(f"{mode}: opened", parts(timed(mode, lambda: Session("s.avs", program=stand_in(mode), seconds=limit))), wanted)
        same(f"{mode}: what is left", left_behind(), before)
    for mode, wanted in FRAMES:
        before = left_behind()
        with Session("s.avs", program=stand_in(mode), seconds=SECONDS) as s:
            same(f"{mode}: frame 0", bytes(s.frame(0).data), bytes(4608))
            s.seconds = 1 if wanted == LATE else SECONDS
            error = timed(mode, s.frame, 1)
            same(f"{mode}: frame 1", parts(error), wanted)
            same(f"{mode}: the same error again", error_of(s.frame, 0), error)
            same(f"{mode}: what is left", left_behind(), before)
    for mode in GOOD:
        with Session("s.avs", program=stand_in(mode), seconds=SECONDS) as s:
            same(f"{mode}: frames", [bytes(s.frame(n).data) == bytes([n]) * 4608 for n in (0, 5, 8)], [True] * 3)


def check_more_stand_ins():
    before = left_behind()
    with Session("s.avs", program=stand_in("refuses")) as s:
        same("a range that the program refuses", parts(error_of(s.frame, 1)), ("RangeRefused", 1, 9))
        same("the frame after it", bytes(s.frame(2).data), b"\2" * 4608)
    with Session("s.avs", program=stand_in("too much")) as s:
        same("a frame with too many bytes", bytes(s.frame(1).data), b"\1" * 4608)
        same("the frame after it", parts(error_of(s.frame, 2)), BAD)
    timed("a program that stays", Session("s.avs", program=stand_in("stays")).close)
    for mode in ("stalls", "stalls in samples"):
        s, found = Session("s.avs", program=stand_in(mode), seconds=SECONDS), []
        waits = threading.Thread(target=lambda: found.append(parts(error_of(s.frame, 1))), daemon=True)
        waits.start()
        until("the frame is asked", s._turn.locked)
        timed(f"{mode}: close", s.close)
        waits.join(SECONDS)
        same(f"{mode}: what the other thread gets", found, [("Closed",)])
    # Ctrl-C in the middle of an answer: what follows must not be taken for another one.
    with Session("s.avs", program=stand_in("stalls in samples"), seconds=SECONDS) as s:
        code = "raise KeyboardInterrupt"
        s._program.wait = lambda _: exec(code)
        try:
            s.frame(1)
        except KeyboardInterrupt:
            code = ""
        same("after Ctrl-C", (code, parts(error_of(s.frame, 0))), ("", ("Closed",)))
    same("what is left", left_behind(), before)


def until(what, holds):
    """Waits for a condition."""
    deadline = time.monotonic() + SECONDS
    while not holds():
        if time.monotonic() > deadline:
            raise TimeoutError(f"{what}: not within {SECONDS} s")
        time.sleep(0.01)


def read_png(what, data):
    """Width, height, and rows of bytes, of a PNG of 8 bits whose rows aren't filtered."""
    same(f"{what}: begin", data[:8], b"\x89PNG\r\n\x1a\n")
    at, packed = 8, b""
    while at < len(data):
        size, kind = struct.unpack_from(">I4s", data, at)
        body = data[at + 8 : at + 8 + size]
        same(f"{what}: checksum of {kind}", struct.unpack_from(">I", data, at + 8 + size)[0], zlib.crc32(kind + body))
        if kind == b"IHDR":
            width, height, bits, colour = struct.unpack_from(">IIBB", body)
        packed += body if kind == b"IDAT" else b""
        at += 12 + size
    size = 1 + width * (3 if colour == 2 else 1)
    rows = zlib.decompress(packed)
    same(f"{what}: kind", (bits, len(rows), set(rows[::size])), (8, size * height, {0}))
    return width, height, [rows[y * size + 1 : (y + 1) * size] for y in range(height)]


def colours(y, u, v, bits, matrix, full):
    """Red, green and blue of samples, in steps of 255, cut to 0 to 255."""
    kr, kb = {"601": (0.299, 0.114), "709": (0.2126, 0.0722)}[matrix]
    top, step = (1 << bits) - 1, 1 << bits - 8
    luma = y / top if full else (y - 16 * step) / (219 * step)
    blue, red = ((x - 128 * step) / (top if full else 224 * step) for x in (u, v))
    r, b = luma + 2 * (1 - kr) * red, luma + 2 * (1 - kb) * blue
    return [min(max(x * 255, 0), 255) for x in (r, (luma - kr * r - kb * b) / (1 - kr - kb), b)]


def near(found, wanted):
    """Whether bytes are these numbers, rounded; a 50th beside a half counts both ways."""
    return len(found) <= len(wanted) and all(abs(x - it) <= 0.52 for x, it in zip(found, wanted))


def check_png():
    for name in FORMATS:
        made, (bits, across, down) = stream_of(name, 16, 8, 2)
        write("p.y4m", made)
        with Session(write("p.avs", 'Y4MSource("p.y4m")')) as s:
            frame = s.frame(1)
        for matrix in ("601", "709"):
            for full in (False, True):
                what = f"{name} {matrix} {full}"
                width, height, rows = read_png(what, png(frame, matrix, full))
                good = (width, height) == (16, 8)
                for x, y in ((x, y) for y in range(8) for x in range(16)):
                    u, v = (it.sample(x // across, y // down) for it in frame.planes[1:]) if across else (128 << bits - 8,) * 2
                    found = rows[y][3 * x : 3 * x + 3] if across else rows[y][x : x + 1]
                    good = good and near(found, colours(frame.planes[0].sample(x, y), u, v, bits, matrix, full))
                same(f"{what}: colours", good, True)


def run_tool(*words, **more):
    return subprocess.run([sys.executable, TOOL, *words], stdin=subprocess.DEVNULL, capture_output=True, text=True,
                          timeout=SECONDS, check=False, **more)


def check_command():
    """The command, its refusals, and which matrix goes by height."""
    for height, options, wanted in ((718, [], ("601", False)), (720, [], ("709", False)), (720, ["--matrix", "601"], ("601", False)),
                                    (720, ["--range", "full"], ("709", True))):
        write("h.avs", f"BlankClip(length=2, width=2, height={height}, color_yuv=$505AF0)")
        done = run_tool("h.avs", "1", "0", "--png", "h-%02d.png", *options)
        same(f"{height} lines {options}", (done.returncode, done.stdout, done.stderr), (0, "h-01.png\nh-00.png\n", ""))
        with open("h-01.png", "rb") as file:
            rows = read_png("h-01.png", file.read())[2]
        same(f"{height} lines {options}: colour", near(rows[0][:3], colours(80, 90, 240, 8, *wanted)), True)
    done = run_tool("h.avs")
    same("info", (done.returncode, done.stdout, done.stderr), (0, "2x720 YV12 24:1 frames 2\n", ""))
    done = run_tool("h.avs", "2")
    same("no such frame", (done.returncode, done.stderr), (1, "avsserve.py: no frame 2: the clip has the frames 0 to 1\n"))
    done = run_tool(write("e.avs", "\nFoo"))
    same("an error", (done.returncode, done.stderr), (1, "avsserve.py: script fault: e.avs line 2: UnknownName\n"))
    for name in ("out.png", "%d-%d.png", "%s.png", "%d%%.png", "%"):
        same(f"--png {name}", run_tool("h.avs", "0", "--png", name).returncode, 2)
    same("no folder", run_tool("h.avs", "0", "--png", "none/%d.png").returncode, 1)
    os.makedirs("path", exist_ok=True)
    os.symlink(PROGRAM, "path/avsserve")
    env = {it: value for it, value in os.environ.items() if it != "AVSSERVE"}
    same("AVSSERVE", run_tool("h.avs", env=dict(env, AVSSERVE="none")).stderr,
         "avsserve.py: AVSSERVE of the environment: none is no program\n")
    same("--program", run_tool("h.avs", "--program", PROGRAM, env=dict(env, AVSSERVE="none")).returncode, 0)
    same("PATH", run_tool("h.avs", env=dict(env, PATH=os.path.abspath("path"))).returncode, 0)


def report(name, text):
    """Tells what differed, or `text`, and gives the status of the test."""
    for it in wrong:
        print(f"{name}: {it}")
    print(f"{name}: {len(wrong)} of {count} comparisons differ" if wrong else f"{name}: {count} comparisons agree, {text}")
    return 1 if wrong else 0


def attempt(check, *arguments):
    """Runs a check. Where it can't go on, that is told, and the next one goes on."""
    try:
        check(*arguments)
    except Exception:
        wrong.append(f"{check.__name__}: {traceback.format_exc()}")


def begin():
    """Stops the test where it hangs, and has the program built unless one is named."""
    faulthandler.dump_traceback_later(900, exit=True)
    if "AVSSERVE" not in os.environ:
        subprocess.run([os.path.join(ROOT, "build")], check=True, stdout=subprocess.DEVNULL)
    os.environ["AVSSERVE"] = PROGRAM


def main():
    begin()
    with tempfile.TemporaryDirectory() as folder:
        os.chdir(folder)
        before = left_behind()
        for check in (check_formats, check_errors, check_threads, check_stand_ins, check_more_stand_ins, check_png, check_command):
            attempt(check)
        same("what is left at the end", left_behind(), before)
        os.chdir(ROOT)
    return report("client", f"with the program and with {len(ENDS + FRAMES + GOOD) + 5} others in its place")


if __name__ == "__main__":
    sys.exit(main())
