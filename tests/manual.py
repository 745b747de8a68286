#!/usr/bin/env python3
"""Takes the examples out of the README and of docs/manual/, runs each, and compares it with what the text says that it gives.

    tests/manual.sh [FILE ..]

The text has these examples, and a file's examples run in their order in a folder of their own, which has `examples/` and
`bin/avsserve`:

  console   after `$ ` a command, and below it all that it prints; a line `..` stands for any lines
  sh        commands, each of which ends with status 0
  avs       a script, whose first line is a comment with its name, is written to that file. In other blocks a comment behind
            a line says what the line gives: a value, an error, `frames 2 1 0` (the first sample of each frame), `rows 1 2 / 3 4`
            (the samples of the first frame), `Y 16 U 128 V 128` (its first sample of each plane), or the size, format, rate and
            length of a clip as `info` prints them. Lines without one stand before those below; so does `clips.avs` of the file
  python    a script of Python, which may import what is in tools/; behind a line that prints, a comment says what it prints
  text      what isn't run
  table     in docs/manual/errors.md each row has an error, and a line or a command (after `$ `) that gives it; in
            docs/manual/avisynth.md each row has lines and their errors, or `LINE` gives `RESULT`, as behind a comment

`./build` is a stub here and `rt ci` isn't run, since the gate does both, nor is `tools/preview.py`, which doesn't end by itself. A
command whose tool isn't installed is skipped with a line, and so is what fails after it in the same file, which may need what it
makes. `in.mkv`, the reader's own file, is two seconds of a moving picture with a tone, which ffmpeg makes: H.264 with one keyframe, as
many files have them seconds apart; mpv has no screen.

Links to files and headings are looked up too; and each function, filter and error that the sources name has its place in the
manual.
"""

import os
import re
import shutil
import struct
import subprocess
import sys
import tempfile

ROOT = os.path.dirname(os.path.dirname(os.path.abspath(__file__)))
PROGRAM = os.environ["AVSSERVE"]
TOOLS = ("ffmpeg", "ffprobe", "x264", "mpv", "mpeg2enc", "y4mscaler", "yuvfps", "parallel", "pv")
SECONDS = 60
# The crates' own lists of what a user can meet.
BUILTINS = ("crates/avs_meaning/src/builtin.rt", "crates/clip_term/src/filter.rt", "crates/avs_values/src/plain_fn.rt")
FAULTS = [f"crates/{it}.antt" for it in ("avs_meaning/specs/Faults", "clip_term/specs/Refusals",
                                        "y4m_stream/specs/Stream", "avs_lex/specs/Tokens")]
wrong = []
skipped = set()
incomplete = set()  # files of which a command was skipped that makes something


def read(path):
    with open(os.path.join(ROOT, path), encoding="utf-8") as file:
        return file.read()


def fail(where, what):
    if where.split(":")[0] in incomplete:
        skipped.add(f"manual: {where}: skipped, it may need what a skipped command makes")
        return
    wrong.append(f"{where}: {what}")


class Room:
    """A folder in which the examples of one file run."""

    def __init__(self, folder, mkv):
        self.folder = folder
        os.mkdir(os.path.join(folder, "bin"))
        os.symlink(PROGRAM, os.path.join(folder, "bin", "avsserve"))
        shutil.copytree(os.path.join(ROOT, "examples"), os.path.join(folder, "examples"))
        os.symlink(os.path.join(ROOT, "tools"), os.path.join(folder, "tools"))
        with open(os.path.join(folder, "build"), "w", encoding="utf-8") as file:
            file.write("#!/bin/sh\necho bin/avsserve\n")
        os.chmod(os.path.join(folder, "build"), 0o755)
        if mkv:
            os.symlink(mkv, os.path.join(folder, "in.mkv"))
        mpv = os.path.join(folder, ".config", "mpv")
        os.makedirs(mpv)
        with open(os.path.join(mpv, "mpv.conf"), "w", encoding="utf-8") as file:
            file.write("vo=null\nao=null\nuntimed=yes\nreally-quiet=yes\n")
        self.env = dict(os.environ, HOME=folder, XDG_CONFIG_HOME=os.path.join(folder, ".config"), LC_ALL="C.UTF-8",
                        PATH=os.path.join(folder, "bin") + os.pathsep + os.environ["PATH"])

    def write(self, name, text):
        with open(os.path.join(self.folder, name), "w", encoding="utf-8") as file:
            file.write(text)

    def has(self, name):
        return os.path.exists(os.path.join(self.folder, name))

    def run(self, *words, **options):
        return subprocess.run(words, cwd=self.folder, env=self.env, stdin=subprocess.DEVNULL, stdout=subprocess.PIPE,
                              timeout=SECONDS, check=False, **options)

    def shell(self, command, *options):
        """The status of a command, and what it printed."""
        done = self.run("bash", *options, "-c", command, stderr=subprocess.STDOUT)
        return done.returncode, done.stdout.decode(errors="replace")

    def script(self, command, text):
        """The program's status for a script, its output, and its line of standard error."""
        self.write(".example.avs", text)
        done = self.run(PROGRAM, command, ".example.avs", stderr=subprocess.PIPE)
        return done.returncode, done.stdout, done.stderr.decode(errors="replace").strip()


def missing(command):
    """The tools that a command names and that aren't installed."""
    words = re.findall(r"[\w./-]+", command)
    if "examples/encode.sh" in words:
        words += ["ffmpeg", "ffprobe"]
    return [it for it in TOOLS if it in words and not shutil.which(it)]


def can_run(where, command):
    lacks = missing(command)
    if re.search(r"^(rt ci|\./build|tools/preview\.py .*)$", command.strip(), re.MULTILINE):
        return False
    for it in lacks:
        skipped.add(f"manual: {where}: skipped, {it} is not installed")
        if it != "mpv":
            incomplete.add(where.split(":")[0])
    return not lacks


def as_pattern(lines):
    """What these lines stand for, `..` for any."""
    parts = [r"(?:.*\n)*" if it.strip() == ".." else re.escape(it) + "\n" for it in lines]
    return re.compile("".join(parts))


def run_console(room, where, lines):
    at = 0
    while at < len(lines):
        if not lines[at].startswith("$ "):
            fail(where, f"a line that no command gives: {lines[at]}")
            return
        command = lines[at][2:]
        at += 1
        while command.endswith("\\"):
            command += "\n" + lines[at]
            at += 1
        first = at
        while at < len(lines) and not lines[at].startswith("$ "):
            at += 1
        wanted = lines[first:at]
        if not can_run(where, command):
            continue
        found = room.shell(command)[1]
        if found and not found.endswith("\n"):
            found += "\n"
        if not as_pattern(wanted).fullmatch(found):
            fail(where, f"{command}\n  gives: {found.strip()}\n  the text says: " + "\n".join(wanted))


def run_sh(room, where, lines):
    command = "\n".join(lines)
    if not can_run(where, command):
        return
    status, found = room.shell(command, "-e", "-o", "pipefail")
    if status != 0:
        fail(where, f"{command}\n  ends with status {status}: {found.strip()[-2000:]}")


def planes_of(head):
    """The sizes of the planes of a stream with this head."""
    width, height = (int(re.search(rb" %b(\d+)" % it, head)[1]) for it in (b"W", b"H"))
    across, down = {b"420": (2, 2), b"422": (2, 1), b"444": (1, 1), b"411": (4, 1)}.get(
        re.search(rb" C(mono|\d+)", head)[1], (0, 0))
    chroma = [(width // across, height // down)] * 2 if across else []
    return [(width, height)] + chroma


def pictures(stream):
    """The planes of each frame of a stream."""
    head, left = stream.split(b"\n", 1)
    planes = planes_of(head)
    wide = re.search(rb" C(?:mono|\d+p)1\d\b", head)
    size = sum(w * h for w, h in planes) * (2 if wide else 1)
    frames = []
    for at in range(6, len(left), 6 + size):
        frame, made = left[at : at + size], []
        if wide:
            frame = struct.unpack(f"<{size // 2}H", frame)
        for w, h in planes:
            made.append([frame[y * w : y * w + w] for y in range(h)])
            frame = frame[w * h :]
        frames.append(made)
    return frames


def shown(kind, stream):
    frames = pictures(stream)
    if kind == "frames":
        return "frames " + " ".join(str(it[0][0][0]) for it in frames)
    if kind == "rows":
        return "rows " + " / ".join(" ".join(map(str, row)) for row in frames[0][0])
    return " ".join(f"{letter} {plane[0][0]}" for letter, plane in zip("YUV", frames[0]))


def gives(room, before, line, said):
    """What a line of a script gives, in the form of what is said of it."""
    kind = re.match(r"(frames|rows|Y) ", said)
    if kind:
        status, out, err = room.script("render", before + line + "\n")
        return shown(kind[1], out) if status == 0 else err
    if re.match(r"\d+x\d+ ", said):
        status, out, err = room.script("info", before + line + "\n")
        return out.decode().split("\n")[0].removeprefix("clip ") if status == 0 else err
    if said.split(":")[0] in errors:
        status, _, err = room.script("info", before + line + "\n")
        return re.sub(r"^(script fault: .* line \d+|input fault: [^:]*): ", "", err) if status else "no error"
    if said == "undefined":
        line, said = f"!Defined({line})", "true"
    status, _, err = room.script("info", f"{before}Assert(false, String({line}))\n")
    found = err.split(": AssertFailed: ", 1)
    if len(found) != 2:
        return err
    return "undefined" if found[1] == "true" and line.startswith("!Defined(") else found[1]


def code_and_result(line):
    """A line's code, and the result that its comment tells."""
    inside = False
    for i, c in enumerate(line):
        if c == '"':
            inside = not inside
        if c == "#" and not inside:
            return line[:i].rstrip(), line[i + 1 :].strip()
    return line, ""


def check_line(room, where, before, code, said):
    if room.has("clips.avs"):
        before = 'Import("clips.avs")\n' + before
    found = gives(room, before, code, said)
    if found != said:
        fail(where, f"{code}\n  gives: {found}\n  the text says: {said}")


def run_avs(room, where, lines):
    named = re.match(r"# ([\w.-]+\.avs)\b", lines[0])
    if named:
        room.write(named[1], "\n".join(lines) + "\n")
        return 0
    before, count, part, depth = "", 0, [], 0
    for line in lines:
        code, said = code_and_result(line)
        part.append(code)
        depth += code.count("(") + code.count("{") - code.count(")") - code.count("}")
        if depth > 0 or code.endswith("\\"):
            continue
        statement, part = "\n".join(part), []
        if said:
            count += 1
            check_line(room, where, before, statement, said)
        else:
            before += statement + "\n"
    return count


def run_table(room, where, text):
    """The rows of the tables of errors."""
    count = 0
    for number, line in enumerate(text.split("\n"), 1):
        row = re.match(r"\| `(\w+)[^|]*\| `((?:[^`\\]|\\.)+)` \|", line)
        if not row or row[1] not in errors:
            continue
        count += 1
        told.add(row[1])
        code = row[2].replace("\\|", "|")
        here = f"{where}:{number}"
        if code.startswith("$ "):
            found = room.shell(code[2:])[1].strip()
            if not re.search(rf": {row[1]}( \d+( want \d+ got \d+)?| [A-Z])?$", found):
                fail(here, f"{code}\n  gives: {found}\n  the text says: {row[1]}")
        else:
            found = gives(room, 'Import("clips.avs")\n', code, row[1])
            if found.split(":")[0] != row[1]:
                fail(here, f"{code}\n  gives: {found}\n  the text says: {row[1]}")
    return count


# What the tables of docs/manual/avisynth.md have.
CLIPS = "c = BlankClip(length=10, width=8, height=8)\na = c\nb = c\nv = c\nc\n"


def run_differences(room, where, text):
    """The rows of the tables of what differs."""
    count = 0
    for number, line in enumerate(text.split("\n"), 1):
        if not line.startswith("| ") or line.startswith(("| In ", "| What ")):
            continue
        cells = line.strip("| ").split(" | ")
        pairs = re.findall(r"`([^`]+)` gives `([^`]+)`", cells[-1])
        if re.fullmatch(r"`\w+`(, `\w+`)*", cells[1]):
            lines, ends = (re.findall(r"`([^`]+)`", it) for it in cells[:2])
            pairs = list(zip(lines, ends if len(ends) > 1 else ends * len(lines), strict=True))
        if not pairs:
            fail(f"{where}:{number}", "a row without an example")
        for code, said in pairs:
            count += 1
            found = gives(room, CLIPS, code, said)
            if found.split(": ")[0] != said:
                fail(f"{where}:{number}", f"{code}\n  gives: {found}\n  the text says: {said}")
    return count


def run_python(room, where, lines):
    room.write("example.py", "\n".join(lines) + "\n")
    status, found = room.shell("PYTHONPATH=tools python3 -B example.py")
    wanted = [code_and_result(it)[1] for it in lines if it.lstrip().startswith("print(")]
    if status != 0 or found.splitlines() != wanted:
        fail(where, f"the script ends with status {status} and prints: {found.strip()[-2000:]}\n  the text says: " + "\n".join(wanted))
    return len(wanted)


def blocks(text):
    """The fenced blocks of a text, each with its number of line and its word."""
    opened = None
    for number, line in enumerate(text.split("\n"), 1):
        if opened is None and line.startswith("```"):
            opened, word, lines = number, line[3:].strip(), []
        elif opened is not None and line.startswith("```"):
            yield opened, word, lines
            opened = None
        elif opened is not None:
            lines.append(line)


def run_file(path, mkv):
    text, count = read(path), 0
    with tempfile.TemporaryDirectory() as folder:
        room = Room(folder, mkv)
        for number, word, lines in blocks(text):
            where = f"{path}:{number}"
            try:
                if word == "console":
                    run_console(room, where, lines)
                    count += sum(it.startswith("$ ") for it in lines)
                elif word == "sh":
                    run_sh(room, where, lines)
                    count += 1
                elif word == "avs":
                    count += run_avs(room, where, lines)
                elif word == "python":
                    count += run_python(room, where, lines)
                elif word != "text":
                    fail(where, f"a block of no known kind: {word!r}")
            except subprocess.TimeoutExpired:
                fail(where, f"not done after {SECONDS} s")
        if path.endswith("/errors.md"):
            count += run_table(room, path, text)
        if path.endswith("/avisynth.md"):
            count += run_differences(room, path, text)
    return count


def anchors(text):
    """The names of the headings of a text, as GitHub makes them."""
    made = set()
    text = re.sub(r"^```.*?^```", "", text, flags=re.DOTALL | re.MULTILINE)
    for head in re.findall(r"^#+ (.*)$", text, re.MULTILINE):
        plain = re.sub(r"\[([^]]*)\]\([^)]*\)", r"\1", head).lower()
        made.add(re.sub(r"[^\w\- ]", "", plain).replace(" ", "-"))
    return made


def check_links(path):
    text = re.sub(r"^```.*?^```", "", read(path), flags=re.DOTALL | re.MULTILINE)
    for target in re.findall(r"\]\(([^)\s]+)\)", text):
        if target.startswith("http"):
            continue
        name, _, anchor = target.partition("#")
        full = os.path.normpath(os.path.join(os.path.dirname(path), name)) if name else path
        if not os.path.exists(os.path.join(ROOT, full)):
            fail(path, f"a link to nothing: {target}")
        elif anchor and full.endswith(".md") and anchor not in anchors(read(full)):
            fail(path, f"a link to no heading: {target}")


def names_in(paths):
    """The names that tables of the sources give: of functions in `=> \"Name\"`, of errors in `codes \"Name\"`."""
    made = set()
    for path in paths:
        made |= set(re.findall(r'(?:=>|_name .*codes) "(\w+)"', read(path)))
    return made


errors = names_in(FAULTS) | {"NotThere", "Changed"}
told = set()


def main(asked):
    manual = sorted(f"docs/manual/{it}" for it in os.listdir(os.path.join(ROOT, "docs", "manual")) if it.endswith(".md"))
    files = ["README.md"] + manual
    files = [it for it in files if not asked or any(it.endswith(end) for end in asked)]
    with tempfile.TemporaryDirectory() as folder:
        mkv = os.path.join(folder, "in.mkv") if shutil.which("ffmpeg") else ""
        if mkv:
            subprocess.run(["ffmpeg", "-nostdin", "-loglevel", "error", "-f", "lavfi", "-i", "testsrc2=s=320x180:r=25:d=2",
                            "-f", "lavfi", "-i", "sine=d=2", "-c:v", "libx264", "-preset", "veryfast", "-g", "250",
                            "-c:a", "alac", mkv], check=True)
        count = sum(run_file(it, mkv) for it in files)
    incomplete.clear()
    texts = files + [] if asked else files + ["docs/" + it for it in os.listdir(os.path.join(ROOT, "docs")) if it.endswith(".md")]
    for it in texts:
        check_links(it)
    if not asked:
        for it in sorted(errors - told):
            fail("docs/manual/errors.md", f"no row for {it}")
        table = read("docs/manual/functions.md")
        for it in sorted(names_in(BUILTINS)):
            if not re.search(rf"^\|.*[`\[]{it}\b", table, re.MULTILINE):
                fail("docs/manual/functions.md", f"no row for {it}")
    for it in sorted(skipped):
        print(it)
    for it in wrong:
        print(it)
    if wrong:
        print(f"manual: {len(wrong)} of {count} examples differ from the text")
        return 1
    apart = ", apart from the skipped ones" if skipped else ""
    print(f"manual: {count} examples give what the text says{apart}; ./build and rt ci are left to the gate")
    return 0


if __name__ == "__main__":
    sys.exit(main(sys.argv[1:]))
