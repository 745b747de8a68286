#!/usr/bin/env python3
"""Any frame of a script, by its number: a client of `avsserve session`, and frames as PNG.

    tools/avsserve.py SCRIPT [N ..] [--png NAME] [--matrix 601|709] [--range limited|full] [--cache C] [--program PROGRAM]

Without numbers it prints what the clip is. With numbers it writes these frames, by default as 0.png, 10.png ..; `%d` in NAME
is the number. In Python, with this folder in the path:

    from avsserve import Session

    with Session("s.avs") as s:
        print(s.info.width, s.info.height, s.info.format, s.info.rate, s.info.frames)
        luma = s.frame(10).planes[0]
        print(luma.sample(0, 0), max(luma.row(0)))

The program is the one that is named, that of the environment's AVSSERVE, bin/avsserve beside this folder, or avsserve in PATH,
the first of these that is given or there. It needs Python 3.9 and nothing else.
"""

import argparse
import array
import fcntl
import os
import re
import select
import shutil
import struct
import subprocess
import sys
import threading
import time
import zlib
from fractions import Fraction
from typing import NamedTuple

LONGEST_LINE = 1_200_000  # a message of a script may have 1,048,576 bytes
LONGEST_ANSWER = 4096  # the line before the samples
SET_PIPE_SIZE = 1031  # F_SETPIPE_SZ, which fcntl names from Python 3.10 on
PIPE_SIZE = 1 << 20
LAST_WORDS = 2  # seconds for a program that ends
SUBSAMPLING = {"YV12": (2, 2), "YV16": (2, 1), "YV24": (1, 1), "YV411": (4, 1), "420": (2, 2), "422": (2, 1), "444": (1, 1)}
LUMA_LINES_OF_HD = 720
# Kr and Kb: what red and blue add to luma.
MATRICES = {"601": (0.299, 0.114), "709": (0.2126, 0.0722)}


class AvsserveError(Exception):
    """What went wrong. `said` is the program's line on standard error, or "", and `status` its exit status, or None."""

    def __init__(self, message, said="", status=None):
        super().__init__(message)
        self.said, self.status = said, status


class ScriptError(AvsserveError):
    """The script has an error: `name` is the file (or "Eval"), `line` counts from 1 (0: the file can't be read as a script), `kind`
    is the error's name in the manual, and `text` the message of an AssertFailed, else ""."""

    def __init__(self, name, line, kind, text, said="", status=2):
        super().__init__(said or f"{name}, line {line}: {kind}", said, status)
        self.name, self.line, self.kind, self.text = name, line, kind, text


class InputError(AvsserveError):
    """A file that the script names can't be used: `name` is the file, `kind` the error's name in the manual, and `detail` what
    follows it, as the number of a frame, else ""."""

    def __init__(self, name, kind, detail, said="", status=3):
        super().__init__(said or f"{name}: {kind}", said, status)
        self.name, self.kind, self.detail = name, kind, detail


class ReadFault(AvsserveError):
    """The system failed to open or read a script or an input."""


class WriteFault(AvsserveError):
    """The system failed to take what the program wrote."""


class NoMemory(AvsserveError):
    """The system gave the program no memory."""


class RangeRefused(AvsserveError, IndexError):
    """The clip has no frame of the number `n`; it has `frames`. The session goes on."""

    def __init__(self, n, frames):
        super().__init__(f"no frame {n}: the clip has the frames 0 to {frames - 1}")
        self.n, self.frames = n, frames


class Ended(AvsserveError):
    """The program ended in a way that it has no line for; `status` is below 0 where a signal ended it."""


class BadAnswer(AvsserveError):
    """The program answered something else than was asked."""


class TimedOut(AvsserveError, TimeoutError):
    """An answer wasn't there in time. The program was killed."""


class Closed(AvsserveError):
    """The session was closed, perhaps by another thread while this one waited."""


class NoProgram(AvsserveError):
    """There is no avsserve to start."""


class Info(NamedTuple):
    """What a clip is: `width` and `height` in samples of luma, the name of the `format`, the `bits` of a sample, the `rate` in
    frames a second as a Fraction, and the number of `frames`. `across` and `down` say how many samples of luma a sample of
    chroma stands for; both are 0 for luma alone."""

    width: int
    height: int
    format: str
    bits: int
    across: int
    down: int
    rate: Fraction
    frames: int

    @property
    def sample_bytes(self):
        """The bytes of a sample: 1 for 8 bits, 2 for more."""
        return 1 if self.bits == 8 else 2

    @property
    def planes(self):
        """Width and height of each plane: Y, or Y, U and V."""
        luma = (self.width, self.height)
        return [luma] + [(self.width // self.across, self.height // self.down)] * 2 if self.across else [luma]

    @property
    def frame_bytes(self):
        """The bytes of a frame."""
        return sum(width * height for width, height in self.planes) * self.sample_bytes


class Plane:
    """`width` x `height` samples of `sample_bytes` bytes each (of two, the low one comes first), row by row from the top, without
    gaps. `data` is a memoryview of these bytes."""

    def __init__(self, width, height, sample_bytes, data):
        self.width, self.height, self.sample_bytes, self.data = width, height, sample_bytes, data

    def sample(self, x, y):
        """The number at column `x` and row `y`, from 0. IndexError where there is none."""
        if not (0 <= x < self.width and 0 <= y < self.height):
            raise IndexError(f"no sample ({x}, {y}) in a plane of {self.width}x{self.height}")
        at = y * self.width + x
        return self.data[at] if self.sample_bytes == 1 else self.data[2 * at] | self.data[2 * at + 1] << 8

    def row(self, y):
        """The numbers of row `y`, as a memoryview of `width` of them. IndexError where there is no such row."""
        if not 0 <= y < self.height:
            raise IndexError(f"no row {y} in a plane of {self.height}")
        size = self.width * self.sample_bytes
        row = self.data[y * size : (y + 1) * size]
        if self.sample_bytes == 1:
            return row
        if sys.byteorder == "little":
            return row.cast("H")
        samples = array.array("H", row.tobytes())
        samples.byteswap()
        return memoryview(samples)


class Frame:
    """Frame `number` of a clip with this `info`: a list of `planes`, Y or Y, U and V, that are parts of the memoryview `data`."""

    def __init__(self, number, info, data):
        self.number, self.info, self.data, self.planes = number, info, data, []
        at = 0
        for width, height in info.planes:
            size = width * height * info.sample_bytes
            self.planes.append(Plane(width, height, info.sample_bytes, data[at : at + size]))
            at += size


def find_program(program=None):
    """The program to start, as the head of this file says. NoProgram where there is none."""
    for said, name in (("", program), ("AVSSERVE of the environment: ", os.environ.get("AVSSERVE"))):
        if name:
            found = shutil.which(name)
            if not found:
                raise NoProgram(f"{said}{name} is no program")
            return os.path.abspath(found)
    built = os.path.join(os.path.dirname(os.path.dirname(os.path.abspath(__file__))), "bin", "avsserve")
    found = built if os.access(built, os.X_OK) else shutil.which("avsserve")
    if not found:
        raise NoProgram(f"no avsserve: there is no {built}, none in PATH, and AVSSERVE isn't set")
    return found


def info_of(line):
    """The Info that a line `clip WxH FORMAT NUM:DEN frames N` tells. BadAnswer where it is no such line."""
    found = re.fullmatch(r"clip ([1-9]\d{0,4})x([1-9]\d{0,4}) (\w+) ([1-9]\d{0,9}):([1-9]\d{0,9}) frames ([1-9]\d{0,6})", line)
    kind = found and re.fullmatch(r"YV12|YV16|YV24|YV411|Y(8|10|12|14|16)|YUV(420|422|444)P(10|12|14|16)", found[3])
    if not kind:
        raise BadAnswer(f"no line on a clip: {line[:200]}", line)
    width, height, numerator, denominator, frames = (int(found[it]) for it in (1, 2, 4, 5, 6))
    bits = int(kind[1] or kind[3] or 8)
    across, down = (0, 0) if kind[1] else SUBSAMPLING[kind[2] or kind[0]]
    if across and (width % across or height % down):
        raise BadAnswer(f"no such size in {kind[0]}: {width}x{height}", line)
    return Info(width, height, kind[0], bits, across, down, Fraction(numerator, denominator), frames)


def fault_of(said, status, script=""):
    """The error that a line on standard error stands for, of a program that ended with this status. A name may hold anything, so
    that of `script`, and Eval, are looked for first."""
    names = "|".join([re.escape(script), "Eval", ".*?"] if script else ["Eval", ".*?"])
    found = re.fullmatch(rf"script fault: ({names}) line (\d+): (AssertFailed): (.*)", said, re.DOTALL) or re.fullmatch(
        r"script fault: (.*) line (\d+): (\w+)()", said, re.DOTALL)
    if found:
        return ScriptError(found[1], int(found[2]), found[3], found[4], said, status)
    found = re.fullmatch(r"input fault: (.*): (\w+) ?([^:]*)", said, re.DOTALL)
    if found:
        return InputError(found[1], found[2], found[3], said, status)
    for line, kind in (("read fault", ReadFault), ("write fault", WriteFault), ("no memory", NoMemory)):
        if said == line:
            return kind(said, said, status)
    how = "didn't end" if status is None else f"ended by signal {-status}" if status < 0 else f"ended with status {status}"
    return Ended(f"the program {how}{': ' if said else ''}{said[-500:]}", said, status)


class _Ends(Exception):
    """The program's output ended."""


class _Program:
    """The program that runs. What is read of it has a deadline, and what it says on standard error is kept meanwhile."""

    def __init__(self, command):
        self.process = subprocess.Popen(command, bufsize=0, stdin=subprocess.PIPE, stdout=subprocess.PIPE, stderr=subprocess.PIPE)
        self.out, self.err = self.process.stdout, self.process.stderr
        self.held, self.errors, self.given_up = b"", bytearray(), False
        self.says_more = True
        self.poll = select.poll()
        for it in (self.out, self.err):
            os.set_blocking(it.fileno(), False)
            self.poll.register(it, select.POLLIN)
        try:
            fcntl.fcntl(self.out, SET_PIPE_SIZE, PIPE_SIZE)
        except OSError:
            pass  # a smaller pipe is slower, and nothing else

    def send(self, line):
        try:
            self.process.stdin.write(line.encode() + b"\n")
        except OSError:
            pass  # it ended: what is read next tells it

    def wait(self, deadline):
        """Waits until there may be more to read. TimedOut at the deadline."""
        left = deadline - time.monotonic()
        if left <= 0:
            raise TimedOut("no answer in time")
        # In short turns, since another thread may give up.
        for which, _ in self.poll.poll(min(left, 0.1) * 1000):
            if which == self.err.fileno():
                self.keep_errors()
        if self.given_up:
            raise _Ends

    def keep_errors(self):
        """Takes what is there of standard error; False where nothing is, or no more will be."""
        got = self.err.read(65536) if self.says_more else None
        if got == b"":
            self.says_more = False
            self.poll.unregister(self.err)
        elif got and len(self.errors) < LONGEST_LINE:
            self.errors += got
        return bool(got)

    def line(self, deadline):
        """The next line, without its newline."""
        while b"\n" not in self.held:
            if len(self.held) > LONGEST_ANSWER:
                raise BadAnswer(f"a line without an end: {self.held[:60]!r} ..")
            got = self.out.read(65536)
            if got == b"":
                raise _Ends
            if got is None:
                self.wait(deadline)
            else:
                self.held += got
        line, _, self.held = self.held.partition(b"\n")
        return line.decode(errors="replace")

    def fill(self, view, deadline):
        """Reads as many bytes as the view has."""
        at = min(len(view), len(self.held))
        view[:at] = self.held[:at]
        self.held = self.held[at:]
        while at < len(view):
            got = self.out.readinto(view[at:])
            if got == 0:
                raise _Ends
            if got is None:
                self.wait(deadline)
            else:
                at += got

    def last_words(self):
        """What an ended program says of it: its status, None where it doesn't end, and its line."""
        deadline = time.monotonic() + LAST_WORDS
        self.poll.unregister(self.out)
        try:
            status = self.process.wait(LAST_WORDS)
        except subprocess.TimeoutExpired:
            status = None
        while self.keep_errors() and time.monotonic() < deadline:
            pass
        self.kill()
        return status, self.errors.decode(errors="replace").rstrip("\n")

    def quit(self):
        """Asks the program to end, and kills it where it doesn't."""
        self.send("quit")
        try:
            self.process.stdin.close()
        except OSError:
            pass
        self.out.close()
        try:
            self.process.wait(LAST_WORDS)
        except subprocess.TimeoutExpired:
            pass
        self.kill()

    def kill(self):
        """Ends it now, and closes what belongs to it."""
        self.process.kill()
        self.process.wait()
        for it in (self.process.stdin, self.out, self.err):
            try:
                it.close()
            except OSError:
                pass


class Session:
    """A script that is open, and answers any frame of its clip in any order.

    `script` is the name of a file; paths in it are from the current folder, as for the program itself. `cache` is the capacity of
    the cache in frames, 1 to 256. `program` is the avsserve to start, `seconds` the longest time that an answer may take.

    The script is executed here: ScriptError, InputError, ReadFault or NoMemory say what is wrong with it, NoProgram that there is
    nothing to start. After any error but RangeRefused the session is over: the program has ended, everything is closed, and later
    calls raise the same error. A session may be used by several threads, which are answered one after the other. It answers at
    most 1,000,000 questions; then it ends with an InputError of the kind TooManyLines."""

    def __init__(self, script, cache=64, program=None, seconds=60):
        self.script, self.seconds, self.over = os.fspath(script), seconds, None
        self._turn = threading.Lock()
        command = [find_program(program), "session", "--cache", str(cache), "--", self.script, "-"]
        try:
            self._program = _Program(command)
        except OSError as error:
            raise NoProgram(f"{command[0]}: {error.strerror}") from error
        self.info = self._ask("info", lambda line, _: info_of(line))

    def __enter__(self):
        return self

    def __exit__(self, *_):
        self.close()

    def frame(self, n):
        """Frame `n`, from 0 to info.frames - 1, as a Frame that is the caller's alone. RangeRefused for other numbers; any other
        error, as InputError where a file became shorter, ends the session."""
        if not 0 <= n < self.info.frames:
            raise RangeRefused(n, self.info.frames)
        return self._ask(f"frame {n:d}", lambda line, deadline: self._frame_of(n, line, deadline))

    def close(self):
        """Ends the program and closes everything. What another thread waits for is given up there, with Closed."""
        if self._turn.acquire(blocking=False):
            try:
                if not self.over:
                    self.over = Closed("the session was closed")
                    self._program.quit()
            finally:
                self._turn.release()
            return
        self._program.given_up = True
        with self._turn:
            if not self.over:
                self.over = Closed("the session was closed")
                self._program.kill()

    def _ask(self, question, take):
        """Sends a line, and gives what `take` makes of the line that answers it and of the deadline."""
        with self._turn:
            if self.over or self._program.given_up:
                raise (self.over or Closed("the session was closed")).with_traceback(None)
            deadline = time.monotonic() + self.seconds
            try:
                self._program.send(question)
                return take(self._program.line(deadline), deadline)
            except _Ends:
                self.over = self._why()
            except AvsserveError as error:
                if isinstance(error, RangeRefused):
                    raise
                self.over = error
                self._program.kill()
            except BaseException:
                # It came between an answer and its end, as Ctrl-C does: what follows would be read as another answer.
                self.over = Closed("the session was left in the middle of an answer")
                self._program.kill()
                raise
            raise self.over.with_traceback(None)

    def _why(self):
        """Why the program's output ended."""
        if self._program.given_up:
            self._program.kill()
            return Closed("the session was closed")
        status, said = self._program.last_words()
        return fault_of(said, status, self.script)

    def _frame_of(self, n, line, deadline):
        size = self.info.frame_bytes
        if line == "refused range":
            raise RangeRefused(n, self.info.frames)
        if line != f"frame {n} {size}":
            raise BadAnswer(f"frame {n} of {size} bytes was asked, and the answer is: {line[:200]}")
        data = memoryview(bytearray(size))
        self._program.fill(data, deadline)
        return Frame(n, self.info, data.toreadonly())


def matrix_of(info, matrix=None):
    """"601" or "709": the one that is given, or by height, 601 below 720 lines."""
    return matrix or ("601" if info.height < LUMA_LINES_OF_HD else "709")


def _terms(info, matrix, full):
    """What each sample adds to red, green and blue, in 1/1024 of their steps: of Y, of V to red, of U and V to green, of U to blue.
    Limited range has black at 16 and white at 235 of 255, and chroma from 16 to 240; full range has all numbers."""
    kr, kb = MATRICES[matrix]
    kg, step, numbers = 1 - kr - kb, 1 << info.bits - 8, range(1 << info.bits)
    low, luma, chroma = (0, numbers[-1], numbers[-1]) if full else (16 * step, 219 * step, 224 * step)

    def table(factor, zero, size):
        return [round(1024 * 255 * factor * (x - zero) / size) for x in numbers]

    middle = 128 * step
    return (table(1, low, luma), table(2 - 2 * kr, middle, chroma), table(-2 * kb * (1 - kb) / kg, middle, chroma),
            table(-2 * kr * (1 - kr) / kg, middle, chroma), table(2 - 2 * kb, middle, chroma))


# A sum of terms, plus BELOW, is a place in this table of bytes: rounded, and cut to 0 to 255.
BELOW = 1024 * 1024
CUT = bytes(BELOW - 512) + b"".join(bytes([x]) * 1024 for x in range(256)) + b"\xff" * (2 * BELOW)


def _rgb_rows(frame, matrix, full):
    """The rows of a frame as bytes of red, green and blue. A sample of chroma holds for all of luma that it stands for."""
    info = frame.info
    of_y, v_red, u_green, v_green, u_blue = _terms(info, matrix, full)
    of_y = [x + BELOW for x in of_y]
    luma, cut = frame.planes[0], CUT.__getitem__

    def spread(numbers):
        return numbers if info.across == 1 else [x for x in numbers for _ in range(info.across)]

    for y in range(info.height):
        if y % info.down == 0:
            u, v = (plane.row(y // info.down) for plane in frame.planes[1:])
            red, blue = spread([v_red[x] for x in v]), spread([u_blue[x] for x in u])
            green = spread([u_green[a] + v_green[b] for a, b in zip(u, v)])
        base, row = [of_y[x] for x in luma.row(y)], bytearray(3 * info.width)
        for place, added in enumerate((red, green, blue)):
            row[place::3] = bytes(map(cut, map(int.__add__, base, added)))
        yield bytes(row)


def _grey_rows(frame, matrix, full):
    of_y = bytes(CUT[x + BELOW] for x in _terms(frame.info, matrix, full)[0])
    for y in range(frame.info.height):
        yield bytes(map(of_y.__getitem__, frame.planes[0].row(y)))


def png(frame, matrix=None, full=False):
    """The frame as the bytes of a PNG of 8 bits: RGB, or grey for luma alone. `matrix` is "601", "709" or None, which goes by
    height; `full` says that the samples have full range. A frame of 1920x1080 takes some two seconds."""
    info = frame.info
    rows = (_rgb_rows if info.across else _grey_rows)(frame, matrix_of(info, matrix), full)
    head = struct.pack(">IIBBBBB", info.width, info.height, 8, 2 if info.across else 0, 0, 0, 0)
    packed = zlib.compress(b"".join(b"\0" + row for row in rows), 6)
    return b"\x89PNG\r\n\x1a\n" + b"".join(_chunk(*it) for it in ((b"IHDR", head), (b"IDAT", packed), (b"IEND", b"")))


def _chunk(name, data):
    return struct.pack(">I", len(data)) + name + data + struct.pack(">I", zlib.crc32(name + data))


def main():
    parser = argparse.ArgumentParser(description="Any frame of a script, by its number, as PNG. Without numbers: what the clip is.")
    parser.add_argument("script", metavar="SCRIPT")
    parser.add_argument("numbers", metavar="N", nargs="*", type=int, help="frames, counted from 0")
    parser.add_argument("--png", metavar="NAME", default="%d.png", help="the pictures' name, where %%d is the number")
    parser.add_argument("--matrix", choices=sorted(MATRICES), help="by default 601 below 720 lines, else 709")
    parser.add_argument("--range", choices=("limited", "full"), default="limited", help="of the samples, by default limited")
    parser.add_argument("--cache", metavar="C", type=int, default=64, help="frames in the cache, 1 to 256, by default 64")
    parser.add_argument("--program", metavar="PROGRAM", help="the avsserve to start")
    asked = parser.parse_args()
    if len(re.findall(r"%0?\d*d", asked.png)) != 1 or asked.png.count("%") != 1:
        parser.error("--png: one %d, where the number goes, as in out-%d.png")
    try:
        with Session(asked.script, asked.cache, asked.program) as session:
            info = session.info
            if not asked.numbers:
                rate = f"{info.rate.numerator}:{info.rate.denominator}"
                print(f"{info.width}x{info.height} {info.format} {rate} frames {info.frames}")
            for n in asked.numbers:
                made = png(session.frame(n), asked.matrix, asked.range == "full")
                with open(asked.png % n, "wb") as file:
                    file.write(made)
                print(asked.png % n)
    except (AvsserveError, OSError) as error:
        sys.exit(f"avsserve.py: {error}")


if __name__ == "__main__":
    main()
