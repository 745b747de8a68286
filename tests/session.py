#!/usr/bin/env python3
"""Runs sessions: lists of requests, and what answers them, byte for byte, until they end.

    tests/session.py [--runs N] [--requests N] [--seed S]

Lines that are sound, that are bad and that are at a limit stand in tables. N lists at random over random scripts are compared
with a second reading of the rules and with the frames of a plain render: they come as files, through pipes in pieces, and byte
by byte. Then clients ask for N frames in all, some of them larger than a pipe, and send no whole line more until they have each.
Readers that close, lists that are no files, faults of scripts, and files that change end sessions with the right status and line.

The program is built first, unless the environment names one as AVSSERVE. Each run, and each wait of a client, has its time.
"""

import argparse
import concurrent.futures
import contextlib
import os
import random
import re
import resource
import select
import shutil
import signal
import socket
import subprocess
import sys
import tempfile
import threading

from workers import PROGRAM, ROOT, script, stream

SECONDS = 60
# For how long nothing comes, where nothing should, in seconds.
MOMENT = 0.02
MOST_BYTES, MOST_LINES = 4_096, 1_000_000
# How many bytes of its list the program holds.
ROOM = 8_192
NOBODY = 65_534

M4 = b"YUV4MPEG2 W1 H1 F25:1 Ip A1:1 Cmono\n" + b"".join(b"FRAME\n" + bytes([n]) for n in range(4))
INFO = b"clip 1x1 Y8 25:1 frames 4\n"
BAD, RANGE, BYE = b"refused line\n", b"refused range\n", b"bye\n"
READ = (4, b"", "read fault\n")
# What a client does beside saying bytes.
INPUT_ENDS, READER_CLOSES = "the input ends", "the reader closes"
# A frame of it is larger than what a pipe holds.
LARGE = 640 * 480 * 3 // 2
SCRIPTS = {
    "m4.avs": 'Y4MSource("m4.y4m")',
    "m12.avs": 'Y4MSource("m4.y4m").Loop(3)',
    "small.avs": 'Y4MSource("small.y4m").Reverse',
    "large.avs": 'Y4MSource("large.y4m")',
    "many.avs": 'c = Y4MSource("large.y4m")\nMerge(c, c.Reverse).FlipVertical.Loop(2) + c.TemporalSoften(1, 255, 255)',
    "one.avs": 'BlankClip(length=1, width=9, height=7, pixel_type="YUV444P12").TurnLeft',
}

# Lines that are sound, with the number of a frame of twelve or with the answer.
SOUND = {
    b"frame 0": 0, b"frame 11": 11, b"frame 007": 7, b"frame 00": 0, b"frame 0000000003": 3, b"frame 12": RANGE,
    b"frame 2147483648": RANGE, b"frame 4294967295": RANGE, b"info": "info", b"quit": "quit",
}
NO_LINES = [
    b"frame 4294967296", b"frame 4294967299", b"frame 9999999999", b"frame 00000000003", b"frame 18446744073709551619", b"frame",
    b"frame ", b"frame  1", b"frame 1 ", b" frame 1", b"frame +1", b"frame -1", b"frame -0", b"Frame 1", b"FRAME 1", b"frame\t1",
    b"\tframe 1", b"frame 1\t", b"frame1", b"frames 1", b"frame 1 2", b"frame 1,2", b"frame 1.0", b"frame 1_0", b"frame 0x1",
    b"frame $1", b"frame a", b"frame 1\0", b"frame \0", b"\0", b"\0frame 1", b"fra\0me 1", b"frame 1\x0b", b"frame \xc2\xa01",
    b"frame \xd9\xa1", b"frame \xef\xbc\x91", b"frame \xb2", b"\xff\xfe", b"\xef\xbb\xbfframe 1", b"frame\xff1", b"\xc3",
    b"fra\rme 1", b"\rframe 1", b"frame\r 1", b"frame 1\r\r ", b"", b" ", b"f", b"info ", b" info", b"INFO", b"Info", b"inf",
    b"infos", b"info\0", b"info 1", b"info\rinfo", b"quit ", b" quit", b"QUIT", b"qui", b"quits", b"quit 0", b"quit\rquit", b"bye",
    b"refused line", b"frame 1 1", b"-", b"--cache", b"#", b"x" * 500,
]
SEVEN = b"frame 2\nframe 0\nframe 9\nhello\ninfo\nquit\nframe 1\n"
SEVEN_ANSWERS = b"frame 2 1\n\x02frame 0 1\n\x00refused range\nrefused line\nclip 1x1 Y8 25:1 frames 4\nbye\n"
# Lists, and what answers them.
LISTS = [
    (SEVEN, SEVEN_ANSWERS),
    (b"frame 2\nframe 2\n", b"frame 2 1\n\x02" * 2),
    (b"", b""), (b"\n", BAD), (b"\r", BAD), (b"\n\n\r\n", BAD * 3), (b"\r\r\n", BAD), (b"info\r\r\n", BAD), (b"info\r\r", BAD),
    (b"info\n\rinfo\n", INFO + BAD), (b"info\r\ninfo\ninfo\r", INFO * 3),
    (b"frame 1\r\nframe 1\r\r\nframe 1", b"frame 1 1\n\x01" + BAD + b"frame 1 1\n\x01"),
    (b"quit\nquit\n", BYE), (b"quit\r\r\nquit\r\nquit\n", BAD + BYE), (b"QUIT\nquit \nquit\nframe 0\n", BAD * 2 + BYE),
    (b"quit\n" + b"x" * 5000, BYE), (b"quit\n" + b"x" * 5000 + b"\nframe 0\n", BYE), (b"quit\n" + b"\n" * 3 * ROOM, BYE),
    (b"info\nquit\n" + b"x\n" * MOST_LINES, INFO + BYE),
]


class Wrong(Exception):
    """What comes isn't what should come."""


def request(line):
    """What a line asks for: `info`, `quit`, the number of a frame, or nothing that there is."""
    text = line[:-1] if line.endswith(b"\r") else line
    if text in (b"info", b"quit"):
        return text.decode()
    number = re.fullmatch(rb"frame ([0-9]{1,10})", text)
    return int(number[1]) if number and int(number[1]) < 1 << 32 else None


class Clip:
    """A script's clip as other commands have it: the first line of `info`, and the frames of a render."""

    def __init__(self, t, name):
        self.line = t.run(["info", name])[1].split(b"\n")[0] + b"\n"
        whole = t.run(["render", name, "--plain"])[1]
        count, head = int(self.line.split()[-1]), whole.index(b"\n") + 1
        size = (len(whole) - head) // count
        self.frames = [whole[at + 6 : at + size] for at in range(head, len(whole), size)]

    def answer(self, asked):
        if asked is None:
            return BAD
        if asked in ("info", "quit"):
            return self.line if asked == "info" else BYE
        if asked >= len(self.frames):
            return RANGE
        return b"frame %d %d\n" % (asked, len(self.frames[asked])) + self.frames[asked]

    def answers(self, data):
        """What answers a list, and the fault that it ends with, or none."""
        lines, given = data.split(b"\n"), []
        for at, line in enumerate(lines if lines[-1] else lines[:-1]):
            if at == MOST_LINES:
                return b"".join(given), "TooManyLines"
            if len(line) > MOST_BYTES:
                return b"".join(given), "LineTooLong"
            given.append(self.answer(request(line)))
            if request(line) == "quit":
                break
        return b"".join(given), None


def ending(answers, fault, name):
    """How a session ends with this list."""
    return (3, answers, f"input fault: {name}: {fault}\n") if fault else (0, answers, "")


def short(data, place=0):
    """A text or bytes, of which a part stands for many."""
    if not isinstance(data, (bytes, str)) or len(data) < 200:
        return repr(data)
    return f"{len(data)} bytes, with {data[max(0, place - 30) : place + 60]!r} about byte {place}"


def compared(came, wanted):
    """What came and what was wanted, each about where they part."""
    pairs = []
    for one, other in zip(came, wanted):
        place = 0
        if isinstance(one, bytes) and isinstance(other, bytes):
            place = next((n for n, (a, b) in enumerate(zip(one, other)) if a != b), min(len(one), len(other)))
        pairs.append((short(one, place), short(other, place)))
    return ", wanted ".join("; ".join(side) for side in zip(*pairs))


class Sessions:
    """A folder for the sessions, and how many of them there were."""

    def __init__(self, folder):
        self.folder, self.count, self.wrong, self.clips = folder, 0, 0, {}

    def path(self, name):
        return os.path.join(self.folder, name)

    def put(self, name, data):
        os.makedirs(os.path.dirname(self.path(name)), exist_ok=True)
        with open(self.path(name), "wb") as file:
            file.write(data if isinstance(data, bytes) else data.encode())

    def clip(self, name):
        if name not in self.clips:
            self.clips[name] = Clip(self, name)
        return self.clips[name]

    def judge(self, what, came, wanted):
        self.count += 1
        if came != wanted:
            self.wrong += 1
            print(f"session: {what}: {compared(came, wanted)}")

    def run(self, words, **how):
        """The status, the answers and the line of a run."""
        how = {"stdin": subprocess.DEVNULL, "stdout": subprocess.PIPE, "stderr": subprocess.PIPE, **how}
        try:
            done = subprocess.run([PROGRAM, *words], cwd=self.folder, timeout=SECONDS, check=False, **how)
        except subprocess.TimeoutExpired as late:
            return "no end", late.stdout, ""
        return done.returncode, done.stdout, (done.stderr or b"").decode("utf-8", "replace")

    def fed(self, words, pieces, packets=False, stays=False):
        """A run whose standard input is fed these pieces, and then ends or stays open. No read takes more than one packet."""
        pair = socket.socketpair(socket.AF_UNIX, socket.SOCK_SEQPACKET) if packets else ()
        given, into = [end.detach() for end in pair] if packets else os.pipe()

        def fill():
            with contextlib.suppress(BrokenPipeError, ConnectionResetError):
                for piece in pieces:
                    os.write(into, piece)
            if not stays:
                os.close(into)

        writer = threading.Thread(target=fill)
        writer.start()
        try:
            return self.run(words, stdin=given)
        finally:
            os.close(given)
            writer.join()
            if stays:
                os.close(into)

    def answers(self, what, name, data, answers, fault=None, ways=("l.txt", "-")):
        """Sessions with this list, as a file and by standard input."""
        for way in ways:
            if way != "-":
                self.put(way, data)
            came = self.fed(["session", name, way], [data] if way == "-" else [])
            self.judge(f"{name} {way}, {what}", came, ending(answers, fault, way))

    def talk(self, what, name, steps, status=0, line="", more=()):
        """A session with a client, which says or does something in each step, and hears what is wanted of it before the next one.
        Where this is None, nothing comes for a moment. Then the session ends by itself.
        """
        fault, told, how = None, b"", dict.fromkeys(("stdin", "stdout", "stderr"), subprocess.PIPE)
        with subprocess.Popen([PROGRAM, "session", name, "-", *more], cwd=self.folder, bufsize=0, **how) as process:
            try:
                for said, wanted in steps:
                    told = (told + said)[-100:] if isinstance(said, bytes) else told
                    does(process, said)
                    hears(process, told, wanted)
                ends(process, told, status, line)
            except Wrong as wrong:
                fault = wrong
            finally:
                process.kill()
        self.count += 1
        if fault:
            self.wrong += 1
            print(f"session: {name}, {what}: {fault}")


def does(process, said):
    """Says bytes, or does something else."""
    if said == INPUT_ENDS:
        process.stdin.close()
    elif said == READER_CLOSES:
        process.stdout.close()
    elif callable(said):
        said()
    else:
        with contextlib.suppress(BrokenPipeError):
            process.stdin.write(said)


def hears(process, told, wanted):
    """These bytes come, and no more is waited for."""
    out, came = process.stdout, bytearray()
    if wanted is None and select.select([out], [], [], MOMENT)[0]:
        raise Wrong(f"after {told}: {out.read(1)}, wanted nothing yet")
    while len(came) < len(wanted or b"") and select.select([out], [], [], SECONDS)[0]:
        piece = out.read(len(wanted) - len(came))
        if not piece:
            break
        came += piece
    if came != (wanted or b""):
        raise Wrong(f"after {told}: {compared([bytes(came)], [wanted])}")


def ends(process, told, status, line):
    """The program ends in this way, and nothing more comes."""
    try:
        came = process.wait(SECONDS), process.stderr.read().decode("utf-8", "replace")
    except subprocess.TimeoutExpired:
        raise Wrong(f"after {told}: no end, wanted {status}; {line!r}") from None
    rest = b"" if process.stdout.closed else process.stdout.read()
    if (*came, rest) != (status, line, b""):
        raise Wrong(f"after {told}: {compared([*came, rest], [status, line, b''])}")


def tables(t):
    """Each line with each end that lines have, by a file and by standard input in turn; and lists both ways."""
    clip = t.clip("m12.avs")
    for line, what in [*SOUND.items(), *((line, BAD) for line in NO_LINES)]:
        wanted = what if isinstance(what, bytes) else clip.answer(what)
        if clip.answer(request(line)) != wanted:
            raise SystemExit(f"session: the second reading takes {line!r} for {request(line)!r}")
        for at, end in enumerate((b"\n", b"\r\n", b"", b"\r")):
            # A line follows, unless this is the last one. A last one without bytes is none.
            following = b"info\n" if end.endswith(b"\n") else b""
            answers = (wanted if line + end else b"") + (clip.line if following and wanted != BYE else b"")
            t.answers(short(line + end), "m12.avs", line + end + following, answers, ways=[("l.txt", "-")[(len(line) + at) % 2]])
    for data, answers in LISTS:
        t.answers(short(data), "m4.avs", data, answers)
    t.judge("no list", t.run(["session", "m4.avs", "none.txt"]), (3, b"", "input fault: none.txt: NotThere\n"))


def long_lines(t):
    """Lines of 4,096 bytes and of 4,097, at each place of the room of 8,192 bytes that the program has for them."""
    clip, way = t.clip("m4.avs"), ["l.txt", "-"]
    for before in (0, 2, MOST_BYTES - 1, MOST_BYTES, MOST_BYTES + 1, ROOM - 1, ROOM, ROOM + 1):
        # So many bytes of short lines.
        lines = b"info\n" * (before // 5)
        lines += b"x" * (before % 5 - 1) + b"\n" if before % 5 else b""
        answers = clip.answers(lines)[0]
        for size in (MOST_BYTES, MOST_BYTES + 1):
            for line in (b"x" * size, b"x" * (size - 1) + b"\r", b"quit\r".ljust(size, b"\0"), b"frame 1".ljust(size)):
                for rest, more in ((b"", b""), (b"\ninfo", INFO), (b"\n" + line, BAD), (b"\n" * 99, BAD * 98)):
                    wanted = (answers + BAD + more, None) if size == MOST_BYTES else (answers, "LineTooLong")
                    t.answers(f"{short(line)}, after {before} bytes", "m4.avs", lines + line + rest, *wanted, ways=way[:1])
                    way.reverse()
                way.reverse()
    for words in (["./l.txt"], ["sub/../l.txt"], [" l\t.txt "], ["l\n.txt"], ["l%s: x.txt"], ["--", "-l.txt"], ["ü €.txt"]):
        t.put(words[-1], b"info\n" + b"x" * 5000)
        wanted = (3, INFO, f"input fault: {words[-1]}: LineTooLong\n")
        t.judge(f"the list {words[-1]!r}", t.run(["session", "m4.avs", *words]), wanted)


def many_lines(t):
    """As many lines as there may be, and one more, which is no line too long. Two sessions run at a time."""
    most = BAD * MOST_LINES
    lists = [
        (b"x\n" * MOST_LINES, most, None),
        (b"x\r\n" * (MOST_LINES - 1) + b"x", most, None),
        (b"x\n" * MOST_LINES + b"quit\n", most, "TooManyLines"),
        (b"x\n" * MOST_LINES + b"x", most, "TooManyLines"),
        (b"\n" * MOST_LINES + b"x" * 5000, most, "TooManyLines"),
        (b"x\n" * (MOST_LINES - 1) + b"quit\nx\n", most[: -len(BAD)] + BYE, None),
    ]

    def one(at):
        data, answers, fault = lists[at]
        if at % 2:
            # What ends a session before its input does isn't followed by the input's end.
            return t.fed(["session", "m4.avs", "-"], [data], stays=fault or b"quit" in data), ending(answers, fault, "-")
        t.put(f"{at}.txt", data)
        return t.run(["session", "m4.avs", f"{at}.txt"]), ending(answers, fault, f"{at}.txt")

    with concurrent.futures.ThreadPoolExecutor(2) as pool:
        for (data, _, _), (came, wanted) in zip(lists, pool.map(one, range(len(lists)))):
            t.judge(short(data), came, wanted)


def line_at_random(rng, count):
    """A line for a clip of so many frames, sound, bad or of any bytes, with its end."""
    line, kind = b"frame %d" % rng.randrange(count), rng.random()
    if 0.5 < kind < 0.6:
        line = b"frame %d" % rng.choice([count, count - 1, count + 1, (1 << 32) - 1, 1 << 32, rng.randrange(1 << 34)])
    elif 0.6 < kind < 0.66:
        line = b"frame " + line[6:].rjust(rng.randint(1, 12), b"0")
    elif 0.66 < kind < 0.76:
        line = rng.choice([b"info"] * 8 + [b"quit", b"x" * rng.randint(MOST_BYTES - 2, MOST_BYTES + 2)])
    elif 0.76 < kind < 0.84:
        line = rng.randbytes(rng.randint(0, 30))
    elif 0.84 < kind:
        at = rng.randint(0, len(line))
        line = line[:at] + rng.choice([b"", rng.randbytes(1), b" ", b"\r", b"\n", b"0", b"\t"]) + line[at + rng.randint(0, 1) :]
    return line + rng.choice([b"\n"] * 12 + [b"\r\n"] * 4 + [b"\r\r\n"])


def in_pieces(rng, data, most):
    """The bytes in pieces of random sizes up to the most."""
    at = 0
    while at < len(data):
        end = at + rng.randint(1, most)
        yield data[at:end]
        at = end


def at_random(t, runs, seed):
    """Lists at random over random scripts, by each way in which a list can come. Some scripts have a fault."""
    for at in range(runs):
        rng = random.Random(f"{seed} {at}")
        # A random script has ten lists.
        if at % 10 == 0:
            text, shape, sources = script(rng)
            for name, frames in sources:
                t.put(name, stream(rng, *shape, frames))
            t.put("s.avs", text)
            t.clips.pop("s.avs", None)
            status, _, fault = t.run(["info", "s.avs"])
        name = rng.choice(["m4.avs", "m12.avs", "small.avs", "one.avs", *["s.avs"] * 4])
        broken = name == "s.avs" and status
        count = 9 if broken else len(t.clip(name).frames)
        data = b"".join(line_at_random(rng, count) for _ in range(rng.randint(0, 40)))
        data = data if rng.random() < 0.6 else data.rstrip(b"\r\n")
        words = ["session", name, "-", *rng.choice([[], *(["--cache", str(cache)] for cache in (1, 2, 64, 256))])]
        way = rng.randrange(5)
        if way == 0:
            t.put("l.txt", data)
            words[2] = "l.txt"
            came = t.run(words)
        else:
            most = rng.choice([1, 2, 7, 40, 300, MOST_BYTES] if len(data) < 600 else [300, MOST_BYTES])
            came = t.fed(words, list(in_pieces(rng, data, most)), packets=way > 2)
        wanted = (status, b"", fault) if broken else ending(*t.clip(name).answers(data), words[2])
        t.judge(f"run {at}: {words}, {data!r}, {text if name == 's.avs' else SCRIPTS[name]}", came, wanted)


def clients(t, requests, seed):
    """Clients that have each answer before they say more, but for the beginning of the next line."""
    for name, part, more in (("large.avs", 0.1, []), ("many.avs", 0.2, ["--cache", "2"]), ("m12.avs", 0.2, ["--cache", "1"]),
                             ("small.avs", 0.5, [])):
        rng, clip = random.Random(f"{seed} {name}"), t.clip(name)
        lines = [b"frame %d\n" % rng.randrange(len(clip.frames)) for _ in range(int(part * requests))]
        for at in range(7, len(lines), 20):
            lines[at] = rng.choice([b"info\n", b"frame 9999\r\n", b"frame 4294967296\n", b"\n", b"x" * 4095 + b"\r\n", b"\xff\0\n"])
        t.talk(f"a client of {len(lines)} requests {more}", name, requests_at_random(clip, [*lines, b"quit\n"], rng), more=more)


def requests_at_random(clip, lines, rng):
    """What is said for each line, whole or in pieces, and its answer."""
    ahead = 0
    for line, following in zip(lines, [*lines[1:], b"\n"]):
        left, way = line[ahead:], rng.random()
        for piece in in_pieces(rng, left[:-1], 9 if way < 0.1 else ROOM):
            yield piece, b""
        if way < 0.04:
            yield b"", None
        # Most often nothing of the next line is there while this one is answered.
        ahead = rng.randrange(len(following)) if way > 0.8 else 0
        yield left[-1:] + following[:ahead], clip.answers(line)[0]


def clients_end(t):
    """What ends a session while both pipes are open, and inputs and readers that end."""
    t.talk("nothing is said", "m4.avs", [(b"", None), (INPUT_ENDS, b"")])
    first = (b"frame 2\nframe 1", b"frame 2 1\n\x02")
    t.talk("the input ends in a line", "m4.avs", [first, (b"", None), (INPUT_ENDS, b"frame 1 1\n\x01")])
    t.talk("quit is said", "m4.avs", [first, (b"\r\nquit\r\nframe 0\n" + b"x" * 5000, b"frame 1 1\n\x01bye\n")])
    long = [(b"info\n" + b"x" * MOST_BYTES, INFO), (b"", None), (b"x", b"")]
    t.talk("a line is too long", "m4.avs", long, 3, "input fault: -: LineTooLong\n")
    for heard in (0, 1, 15, 16, 1000, 70_000, LARGE // 2):
        steps = [(b"frame 1\n", t.clip("large.avs").answer(1)[:heard]), (READER_CLOSES, b"")]
        t.talk(f"a reader closes after {heard} bytes", "large.avs", steps, 5, "write fault\n")
    for said in (b"frame 2\n", b"info\n", b"x\n", b"frame 99\n", b"quit\n"):
        steps = [(b"info\n", INFO), (READER_CLOSES, b""), (said, b"")]
        t.talk(f"a reader closes before {said}", "m4.avs", steps, 5, "write fault\n")
    t.talk("a reader closes after the last answer", "m4.avs", [(b"info\n", INFO), (READER_CLOSES, b""), (INPUT_ENDS, b"")])


def outputs(t):
    """Outputs that take nothing or a part, and streams that are closed as the program begins."""
    words = ["session", "m4.avs", "l.txt"]
    for data in (b"frame 1\n", b"info\n", b"x\n", b"frame 99\n", b"quit\n", b""):
        t.put("l.txt", data)
        wanted = (5, None, "write fault\n") if data else (0, None, "")
        with open("/dev/full", "wb") as full:
            t.judge(f"{data} on a full disk", t.run(words, stdout=full), wanted)
        t.judge(f"{data}, standard output closed", t.run(words, stdout=None, preexec_fn=lambda: os.close(1)), wanted)
    with open("/dev/full", "wb") as full:
        t.judge("a full disk under the line", t.run([*words[:2], "none.txt"], stderr=full), (3, b"", ""))
    t.put("l.txt", SEVEN)
    t.judge("standard input closed", t.run(words, stdin=None, preexec_fn=lambda: os.close(0)), (0, SEVEN_ANSWERS, ""))

    def limit(size):
        signal.signal(signal.SIGXFSZ, signal.SIG_IGN)
        resource.setrlimit(resource.RLIMIT_FSIZE, (size, size))

    for size in range(len(SEVEN_ANSWERS) + 1):
        with open(t.path("out"), "w+b") as out:
            status, _, line = t.run(words, stdout=out, preexec_fn=lambda size=size: limit(size))
            out.seek(0)
            came = (status, out.read(), line)
        whole = size == len(SEVEN_ANSWERS)
        t.judge(f"a disk of {size} bytes", came, (0 if whole else 5, SEVEN_ANSWERS[:size], "" if whole else "write fault\n"))


def lists(t):
    """Lists that are no plain files, and standard input by its name."""
    os.makedirs(t.path("folder"), exist_ok=True)
    os.symlink("loop", t.path("loop"))
    for name, wanted in (
        ("folder", READ), ("l.txt/x", READ), ("loop", READ), ("n" * 300, READ), ("/proc/self/mem", READ), ("m4.avs", (0, BAD, "")),
        ("/dev/null", (0, b"", "")), ("/dev/zero", (3, b"", "input fault: /dev/zero: LineTooLong\n")), ("m4.y4m", (0, BAD * 6, "")),
        ("sub/none.txt", (3, b"", "input fault: sub/none.txt: NotThere\n")), ("", (3, b"", "input fault: : NotThere\n")),
    ):
        t.judge(f"the list {name[:20]!r}", t.run(["session", "m4.avs", name]), wanted)
    t.put("source.avs", 'Y4MSource("-")')
    t.put("import.avs", 'Import("-")')
    t.put("four.txt", "info\nframe 4\nframe 1\ninfo\n")
    for words, given, wanted in (
        # Standard input can be had once.
        (["-", "-"], "m4.avs", READ),
        (["source.avs", "-"], "m4.y4m", READ),
        (["import.avs", "-"], "m4.avs", READ),
        (["-", "l.txt"], "import.avs", READ),
        (["-", "l.txt"], "m4.avs", (0, SEVEN_ANSWERS, "")),
        (["import.avs", "l.txt"], "m4.avs", (0, SEVEN_ANSWERS, "")),
        # There is no way back to its first frame.
        (["source.avs", "four.txt"], "m4.y4m", (4, INFO + RANGE, "read fault\n")),
        (["source.avs", "l.txt"], "m4.avs", (3, b"", "input fault: -: NotY4m\n")),
        (["-", "l.txt"], "l.txt", (2, b"", "script fault: - line 1: Syntax\n")),
        (["m4.avs", "/dev/stdin"], "l.txt", (0, SEVEN_ANSWERS, "")),
        (["m4.avs", "-"], "folder", READ),
    ):
        given_by = os.open(t.path(given), os.O_RDONLY)
        t.judge(f"{words} with {given} as standard input", t.run(["session", *words], stdin=given_by), wanted)
        os.close(given_by)
    os.mkfifo(t.path("fifo"))
    # It stays open while the session ends by `quit`.
    fifo = os.open(t.path("fifo"), os.O_RDWR)
    os.write(fifo, SEVEN)
    t.judge("a list in a fifo", t.run(["session", "m4.avs", "fifo"]), (0, SEVEN_ANSWERS, ""))
    os.close(fifo)
    t.put("secret.txt", SEVEN)
    os.chmod(t.path("secret.txt"), 0)
    how = {}
    if os.geteuid() == 0:
        # The root user may read each file, so another one runs the program, from a place that it may enter.
        os.chmod(t.folder, 0o755)
        how = {"user": NOBODY, "executable": shutil.copy(PROGRAM, t.path("program"))}
        os.chmod(how["executable"], 0o755)
    t.judge("a list without permission", t.run(["session", "m4.avs", "secret.txt"], **how), READ)


def faults(t):
    """Faults of scripts come before the list is opened: no fifo and no pipe without bytes is waited for."""
    t.put("cut.y4m", M4[:-1])
    t.put("long.txt", b"x" * 5000)
    for name, text, wanted in (
        ("none.avs", None, (2, b"", "script fault: none.avs line 0: NotThere\n")),
        ("folder", None, READ),
        ("zero.avs", "\nx = 1 / 0", (2, b"", "script fault: zero.avs line 2: DivZero\n")),
        ("number.avs", "5", (2, b"", "script fault: number.avs line 1: NotClip\n")),
        ("absent.avs", 'Y4MSource("none.y4m")', (3, b"", "input fault: none.y4m: NotThere\n")),
        ("cut.avs", 'Y4MSource("cut.y4m")', (3, b"", "input fault: cut.y4m: Truncated 3\n")),
    ):
        if text:
            t.put(name, text)
        for given in ("l.txt", "none.txt", "folder", "long.txt", "fifo"):
            t.judge(f"{name} with the list {given}", t.run(["session", name, given]), wanted)
        t.judge(f"{name} with the list -", t.fed(["session", name, "-"], [], stays=True), wanted)


def changes(t):
    """Sources that change while a client asks. What is in the cache is still given, and no answer before the fault is cut."""
    with open(t.path("large.y4m"), "rb") as file:
        whole = file.read()
    places = [whole.index(b"\n") + 1 + n * (LARGE + 6) for n in range(13)]
    clip, path = t.clip("large.avs"), t.path("changing.y4m")

    def append():
        with open(path, "ab") as file:
            file.write(b"FRAME\n" + bytes(LARGE))

    t.put("changing.avs", 'Y4MSource("changing.y4m")')
    # How the file changes, or where it is cut; the size of the cache; which frames are asked before and after; which one isn't
    # there any more, and the end of the file, or where the program was in it.
    for change, cache, before, after, fault in (
        (places[5] + 100, 64, [0, 3], [2, 4, 3, 0], (5, places[5] + 100)),
        (places[5] + 100, 64, [0, 3], [], (9, places[5] + 100)),
        (places[5], 64, [0, 3], [4], (5, places[5])),
        (places[6] - 1, 1, [3], [4, 0], (5, places[6] - 1)),
        (0, 64, [7, 1, 3], [3, 7, 1, 7], (8, places[4])),
        (0, 1, [7, 1, 3], [3, 3], (1, 0)),
        (9, 2, [7, 3, 8], [3, 8, 3], (7, 9)),
        (lambda: os.unlink(path), 1, [7, 1, 3], [3, 1, 7, 0, 11], None),
        (append, 1, [7, 1, 3], [3, 11, 0], None),
    ):
        t.put("changing.y4m", whole)
        act = change if callable(change) else lambda size=change: os.truncate(path, size)
        before, after = ([(b"frame %d\n" % n, clip.answer(n)) for n in numbers] for numbers in (before, after))
        last, status, line = (b"quit\n", BYE), 0, ""
        if fault:
            last, status = (b"info\nx\nframe %d\ninfo\n" % fault[0], clip.line + BAD), 3
            line = f"input fault: changing.y4m: Changed {fault[0]} want {places[fault[0] + 1]} got {fault[1]}\n"
        steps = [*before, (act, b""), *after, last]
        t.talk(f"a change, {change}", "changing.avs", steps, status, line, ["--cache", str(cache)])


def main():
    parser = argparse.ArgumentParser(description=__doc__, formatter_class=argparse.RawDescriptionHelpFormatter)
    parser.add_argument("--runs", type=int, default=400)
    parser.add_argument("--requests", type=int, default=1000)
    parser.add_argument("--seed", type=int, default=1)
    options = parser.parse_args()
    if "AVSSERVE" not in os.environ:
        subprocess.run([os.path.join(ROOT, "build")], check=True, stdout=subprocess.DEVNULL)
    with tempfile.TemporaryDirectory() as folder:
        t = Sessions(folder)
        for name, data in {
            **SCRIPTS, "m4.y4m": M4, "large.y4m": stream(random.Random(0), 640, 480, 8, 12),
            "small.y4m": stream(random.Random(0), 16, 4, 10, 300),
        }.items():
            t.put(name, data)
        for part in (tables, long_lines, many_lines, clients_end, outputs, lists, faults, changes):
            part(t)
        at_random(t, options.runs, options.seed)
        clients(t, options.requests, options.seed)
    print(f"session: {t.count} sessions, {t.wrong} wrong")
    return 1 if t.wrong else 0


if __name__ == "__main__":
    sys.exit(main())
