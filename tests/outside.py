#!/usr/bin/env python3
"""Runs the program where the system fails: full disks, readers that end, files that change, and inputs that are no files.

Each run ends with the status and the line that docs/manual/errors.md gives, within its time, and has written the beginning of the
right stream. A case whose tool or right isn't here is skipped with a line. The program is built first, unless the environment
names one as AVSSERVE.
"""

import os
import re
import resource
import shutil
import stat
import subprocess
import sys
import tempfile
import threading

ROOT = os.path.dirname(os.path.dirname(os.path.abspath(__file__)))
PROGRAM = os.environ.get("AVSSERVE", os.path.join(ROOT, "bin", "avsserve"))
SECONDS = 60
LIMIT = 1_048_576
NOBODY = 65_534


def stream(width, height, frames):
    """A stream of luma alone, whose frames are one number each."""
    head = f"YUV4MPEG2 W{width} H{height} F25:1 Ip A1:1 Cmono\n".encode()
    return head + b"".join(b"FRAME\n" + bytes([n % 256]) * (width * height) for n in range(frames))


SMALL = stream(8, 8, 6)
# Some twenty frames of 250,000 bytes, of which a pipe holds a part of one.
LARGE = stream(500, 500, 20)
FRAME = 6 + 500 * 500
HEAD = len(LARGE) - 20 * FRAME
COPY = 'Y4MSource("{}")'


class Outside:
    """A folder for the runs, and how many of them there were."""

    def __init__(self, folder):
        self.folder, self.runs, self.wrong = folder, 0, 0

    def path(self, name):
        return os.path.join(self.folder, name)

    def put(self, name, data):
        """Writes a file, under a name that is a text or bytes."""
        whole = os.path.join(os.fsencode(self.folder), name if isinstance(name, bytes) else name.encode())
        os.makedirs(os.path.dirname(whole), exist_ok=True)
        with open(whole, "wb") as file:
            file.write(data if isinstance(data, bytes) else data.encode())

    def judge(self, what, ended, wanted):
        """Compares what a run left with what is wanted of it."""
        self.runs += 1
        if ended != wanted:
            self.wrong += 1
            print(f"outside: {what}: {short(ended)}, wanted {short(wanted)}")

    def run(self, words, **how):
        """The status, the stream and the lines of a run."""
        how = {"stdout": subprocess.PIPE, "stderr": subprocess.PIPE, "stdin": subprocess.DEVNULL, **how}
        done = subprocess.run([PROGRAM, *words], cwd=self.folder, timeout=SECONDS, check=False, **how)
        return done.returncode, done.stdout, (done.stderr or b"").decode("utf-8", "replace")

    def script(self, text, name="s.avs"):
        self.put(name, text)
        return ["render", name]


def short(ended):
    return tuple(x if not isinstance(x, bytes) or len(x) < 80 else f"{len(x)} bytes" for x in ended)


def outputs(t):
    """Outputs that take nothing, or a part."""
    words = t.script(COPY.format("small.y4m"))
    t.judge("no fault", t.run(words), (0, SMALL, ""))
    for crew in ([], ["--threads", "4"]):
        with open("/dev/full", "wb") as full:
            t.judge("a full disk", t.run(words + crew, stdout=full), (5, None, "write fault\n"))
            t.judge("a full disk under the line", t.run(t.script("x = 1 / 0", "bad.avs") + crew, stderr=full), (2, b"", ""))
            t.judge("a full disk under the report", t.run(words + crew + ["--report"], stderr=full), (5, SMALL, ""))
            t.judge("a full disk under info", t.run(["info", "s.avs"], stdout=full), (5, None, "write fault\n"))
    with open("/dev/full", "wb") as full:
        t.judge("a full disk under the self test", t.run(["selftest", "1"], stdout=full), (5, None, "write fault\n"))
    closed_outputs(t, words)
    small_disk(t)


def closed_outputs(t, words):
    """Standard output, or standard error, is closed as the program begins."""
    done = t.run(words, stdout=None, preexec_fn=lambda: os.close(1))
    t.judge("standard output closed", done, (5, None, "write fault\n"))
    done = t.run(words, stderr=None, preexec_fn=lambda: os.close(2))
    t.judge("standard error closed", done, (0, SMALL, ""))
    done = t.run(["render", "bad.avs"], stderr=None, preexec_fn=lambda: os.close(2))
    t.judge("standard error closed under a line", done, (2, b"", ""))
    done = t.run(words, stdin=None, preexec_fn=lambda: os.close(0))
    t.judge("standard input closed", done, (0, SMALL, ""))
    with open(t.path("small.y4m"), "rb") as file:
        t.judge("standard output only for reading", t.run(words, stdout=file), (5, None, "write fault\n"))


def small_disk(t):
    """A file system that is full after some frames."""
    disk = t.path("disk")
    os.makedirs(disk, exist_ok=True)
    if subprocess.run(["mount", "-t", "tmpfs", "-o", "size=1m", "tmpfs", disk], capture_output=True, check=False).returncode:
        print("outside: a small disk skipped, no file system can be mounted")
        return
    try:
        with open(os.path.join(disk, "out.y4m"), "wb") as out:
            status, _, line = t.run(t.script(COPY.format("large.y4m"), "l.avs"), stdout=out)
        with open(os.path.join(disk, "out.y4m"), "rb") as out:
            part = out.read()
        t.judge("a small disk", (status, LARGE.startswith(part), 0 < len(part) <= LIMIT, line), (5, True, True, "write fault\n"))
    finally:
        subprocess.run(["umount", disk], check=True)


def readers(t):
    """A reader that closes the pipe after the head, and after each frame. No signal kills the program."""
    words = t.script(COPY.format("large.y4m"), "l.avs")
    for crew in ([], ["--threads", "4"]):
        for frames in range(-1, 19):
            wanted = 0 if frames < 0 else HEAD + frames * FRAME
            with subprocess.Popen([PROGRAM, *words, *crew], cwd=t.folder, stdout=subprocess.PIPE, stderr=subprocess.PIPE) as run:
                got = run.stdout.read(wanted)
                run.stdout.close()
                line = run.stderr.read().decode()
                ended = (run.wait(SECONDS), LARGE.startswith(got), len(got), line)
            t.judge(f"a reader that ends after frame {frames}", ended, (5, True, wanted, "write fault\n"))


def no_files(t):
    """Inputs that are no regular files, and files that can't be opened."""
    os.makedirs(t.path("folder"), exist_ok=True)
    for name in ("folder", "small.y4m/a.y4m", "loop.y4m", "n" * 300):
        t.judge(name[:20], t.run(t.script(COPY.format(name))), (4, b"", "read fault\n"))
        t.judge(f"the script {name[:20]}", t.run(["render", name]), (4, b"", "read fault\n"))
        t.judge(f"an import of {name[:20]}", t.run(t.script(f'Import("{name}")')), (4, b"", "read fault\n"))
    for name in ("sub/absent.y4m", "absent.y4m"):
        t.judge(name, t.run(t.script(COPY.format(name))), (3, b"", f"input fault: {name}: NotThere\n"))
    t.judge("no script", t.run(["render", "sub/absent.avs"]), (2, b"", "script fault: sub/absent.avs line 0: NotThere\n"))
    t.judge("/dev/null", t.run(t.script(COPY.format("/dev/null"))), (3, b"", "input fault: /dev/null: NotY4m\n"))
    t.judge("/dev/zero", t.run(t.script(COPY.format("/dev/zero"))), (3, b"", "input fault: /dev/zero: NotY4m\n"))
    t.judge("the script /dev/zero", t.run(["render", "/dev/zero"])[:2], (2, b""))
    t.judge("the script /dev/null", t.run(["render", "/dev/null"])[:2], (2, b""))
    fifo(t)
    permission(t)


def fifo(t):
    """A fifo can be read once only: it is no input. Where its frames are so small that none is skipped, the head is written
    before that shows. As a script a fifo is read to its end.
    """
    os.mkfifo(t.path("fifo.y4m"))

    def fill(data):
        try:
            with open(t.path("fifo.y4m"), "wb") as pipe:
                pipe.write(data)
        except BrokenPipeError:
            pass

    for what, words, data, wanted in (
        ("a fifo", t.script(COPY.format("fifo.y4m")), SMALL, (4, SMALL[: SMALL.index(b"\n") + 1], "read fault\n")),
        ("a fifo of large frames", t.script(COPY.format("fifo.y4m")), LARGE, (4, b"", "read fault\n")),
        ("a script in a fifo", ["render", "fifo.y4m"], COPY.format("small.y4m").encode(), (0, SMALL, "")),
    ):
        writer = threading.Thread(target=fill, args=(data,))
        writer.start()
        t.judge(what, t.run(words), wanted)
        writer.join()


def permission(t):
    """A file without permission is a read fault, and isn't told as one that is not there."""
    t.put("secret.y4m", SMALL)
    t.put("secret.avs", COPY.format("small.y4m"))
    for name in ("secret.y4m", "secret.avs"):
        os.chmod(t.path(name), 0)
    how = {}
    if os.geteuid() == 0:
        # The root user may read each file, so another one runs the program, from a place that it may enter.
        os.chmod(t.folder, 0o755)
        how = {"user": NOBODY, "executable": shutil.copy(PROGRAM, t.path("program"))}
        os.chmod(how["executable"], 0o755)
    script = t.script(COPY.format("secret.y4m"))
    t.judge("a file without permission", t.run(script, **how), (4, b"", "read fault\n"))
    t.judge("a script without permission", t.run(["render", "secret.avs"], **how), (4, b"", "read fault\n"))


def changes(t):
    """Files that shrink, grow or vanish while they are rendered."""
    for crew in ([], ["--threads", "4"]):
        # Past what is read by then, and before it.
        for place in (HEAD + 17 * FRAME, HEAD + 17 * FRAME + 5, HEAD + 18 * FRAME - 1, 0, HEAD, HEAD + 2 * FRAME + 9):
            fault = fault_of_cut(changed(t, crew, lambda path, place=place: os.truncate(path, place)), place)
            t.judge(f"cut at {place} {' '.join(crew)}", (fault,), (None,))
        for what, change in (("vanishes", os.unlink), ("grows", lambda path: append(path, b"FRAME\n" + b"x" * 250_000))):
            t.judge(f"a file that {what}", changed(t, crew, change), (0, LARGE, ""))


def append(path, data):
    with open(path, "ab") as file:
        file.write(data)


def changed(t, crew, change):
    """A run whose input is changed after its reader has three frames."""
    t.put("sub/changing.y4m", LARGE)
    words = t.script(COPY.format("sub/changing.y4m"), "c.avs")
    with subprocess.Popen([PROGRAM, *words, *crew], cwd=t.folder, stdout=subprocess.PIPE, stderr=subprocess.PIPE) as run:
        got = run.stdout.read(HEAD + 3 * FRAME)
        change(t.path("sub/changing.y4m"))
        got += run.stdout.read()
        line = run.stderr.read().decode()
        return run.wait(SECONDS), got, line


def fault_of_cut(ended, place):
    """What is wrong with a run whose input was cut at this place, or None.

    The frame in the line isn't whole any more, and comes after those that were written. Where reading ended is the cut, or the
    place that the source had reached by then.
    """
    status, out, line = ended
    said = re.fullmatch(r"input fault: sub/changing\.y4m: Changed (\d+) want (\d+) got (\d+)\n", line)
    if status != 3 or not said:
        return f"status {status}, {line!r}"
    frame, want, got = map(int, said.groups())
    if not LARGE.startswith(out) or (len(out) - HEAD) % FRAME:
        return f"{len(out)} bytes, which are no beginning of the stream in whole frames"
    if frame < (len(out) - HEAD) // FRAME or want != HEAD + (frame + 1) * FRAME or want <= place:
        return f"frame {frame} up to {want}, after {len(out)} bytes"
    if got >= want or got < place or (got > place and place > HEAD + 16 * FRAME):
        return f"ended at {got}, not at {place}"
    return None


def memory(t):
    """Memory for a tenth of what the cache needs, which is too little, and for more and more: no memory, or a whole stream."""
    # 300 frames of a mebibyte, of which the cache holds 256.
    t.put("m.avs", 'BlankClip(length=300, width=1024, height=1024, pixel_type="Y8").Invert')
    words = ["render", "m.avs", "--cache", "256"]
    whole = t.run(words)[1]
    head = whole.index(b"\n") + 1
    needs = 256 * LIMIT
    for tenths in range(1, 20, 2):
        for crew in ([], ["--threads", "4"]):
            status, out, line = limited(t, words + crew, tenths * needs // 10)
            statuses = (6,) if tenths == 1 else (0, 6)
            in_frames = out == b"" or (len(out) - head) % (LIMIT + 6) == 0
            right = out == whole and line == "" if status == 0 else whole.startswith(out) and in_frames and line == "no memory\n"
            what = f"{tenths} tenths of the cache's memory {' '.join(crew)}: status {status}, {len(out)} bytes, {line!r}"
            t.judge(what, (status in statuses, right), (True, True))


def limited(t, words, limit):
    """A run in so many bytes of memory."""
    return t.run(words, preexec_fn=lambda: resource.setrlimit(resource.RLIMIT_AS, (limit, limit)))


def hostile(t):
    """Scripts of a mebibyte of each hostile kind end as they should, with one line."""
    kinds = {
        "parentheses": ("x = " + "(" * LIMIT, "NestLimit"),
        "braces": ("{" * LIMIT, "Syntax"),
        "signs": ("x = " + "-" * LIMIT, "NestLimit"),
        "questions": ("x = " + "1?" * LIMIT, "NestLimit"),
        "dots": ("a" + ".a" * (LIMIT // 2 - 1), "UnknownName"),
        "sums": ("x = 1" + "+1" * (LIMIT // 2 - 9), "NotClip"),
        "else if": ("if(true){}" + "else if(true){}" * (LIMIT // 15 - 1), "NotClip"),
        "statements": ("x=1\n" * LIMIT, "NotClip"),
        "functions": ("".join(f"function f{n:x}(){{}}\n" for n in range(LIMIT // 20)), "NotClip"),
        "sources": ("Y4MSource(0)\n" * LIMIT, "NoMatch"),
        "commas": ("Nop(" + "1," * LIMIT, "Syntax"),
        "arguments": ("Nop(" + "1,1" * LIMIT, "Syntax"),
        "names": ("a" * LIMIT, "UnknownName"),
        "a large number": ("x = " + "9" * LIMIT, "IntRange"),
        "a text": ('x = "' + "a" * LIMIT, "OpenString"),
        "a comment": ("/*" + " " * LIMIT, "OpenComment"),
        "comments in comments": ("[*" * LIMIT, "OpenComment"),
        "newlines": ("\n" * LIMIT, "NotClip"),
        "joined lines": ("\\\n" * LIMIT, "NotClip"),
        "zeros": ("\0" * LIMIT, "BadChar"),
        "bytes that are no text": (b"\xff" * LIMIT, "NotUtf8"),
        "half characters": (b"#" + b"\xc3" * LIMIT, "NotUtf8"),
    }
    for what, (text, kind) in kinds.items():
        data = (text if isinstance(text, bytes) else text.encode())[:LIMIT]
        status, out, line = t.run(t.script(data))
        named = line.startswith("script fault: s.avs line ") and line.count("\n") == 1 and line.endswith("\n")
        t.judge(f"a mebibyte of {what}", (status, out, named, line.split(": ")[-1]), (2, b"", True, kind + "\n"))
    status, out, line = t.run(t.script(b" " * (LIMIT + 1)))
    t.judge("a script that is too long", (status, out, line), (2, b"", "script fault: s.avs line 0: ScriptTooLong\n"))
    status, out, line = t.run(t.script(b" " * (LIMIT - 22) + COPY.format("small.y4m").encode()))
    t.judge("a script as long as it may be", (status, out, line), (0, SMALL, ""))


def names(t):
    """Names with newlines, blanks and letters of all kinds, as they stand in the script; names that are no text."""
    for name in ("new\nline.y4m", " blank ", "tab\t.y4m", "./-", "--report", "ü/ä €.y4m", "a;b|c&d.y4m", "a\\b.y4m", "%s%n.y4m", "'.y4m"):
        t.put(name, SMALL)
        t.judge(repr(name), t.run(t.script(COPY.format(name))), (0, SMALL, ""))
        t.put(name, SMALL[:50])
        t.judge(f"{name!r}, cut", t.run(t.script(COPY.format(name))), (3, b"", f"input fault: {name}: Truncated 0\n"))
    t.put(b"\xff\xfe.avs", COPY.format("small.y4m"))
    status, out, line = t.run(["render", b"\xff\xfe.avs"])
    t.judge("a script's name that is no text", (status, out, line.startswith("usage: ")), (1, b"", True))
    t.put(b"\xff.y4m", SMALL)
    t.judge("a source's name that is no text", t.run(t.script(b'Y4MSource("\xff.y4m")')), (2, b"", "script fault: s.avs line 0: NotUtf8\n"))
    t.put("sub/s.avs", COPY.format("small.y4m"))
    t.judge("a script in a folder", t.run(["render", "sub/s.avs"]), (0, SMALL, ""))
    t.put("sub/bad.avs", "\nx = 1 / 0")
    t.judge("the folder of a name", t.run(["render", "sub/bad.avs"]), (2, b"", "script fault: sub/bad.avs line 2: DivZero\n"))
    t.judge("the folder of an import", t.run(t.script('Import("sub/bad.avs")')), (2, b"", "script fault: sub/bad.avs line 2: DivZero\n"))


def main():
    if "AVSSERVE" not in os.environ:
        subprocess.run([os.path.join(ROOT, "build")], check=True, stdout=subprocess.DEVNULL)
    with tempfile.TemporaryDirectory() as folder:
        t = Outside(folder)
        t.put("small.y4m", SMALL)
        t.put("large.y4m", LARGE)
        os.symlink("loop.y4m", t.path("loop.y4m"))
        for part in (outputs, readers, no_files, changes, memory, hostile, names):
            part(t)
        for name in ("secret.y4m", "secret.avs"):
            os.chmod(t.path(name), stat.S_IRUSR | stat.S_IWUSR)
    print(f"outside: {t.runs} runs, {t.wrong} wrong")
    return 1 if t.wrong else 0


if __name__ == "__main__":
    sys.exit(main())
