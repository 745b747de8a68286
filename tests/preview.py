#!/usr/bin/env python3
"""Runs tools/preview.py and its page: whom it lets in, what it reads again, and in a headless Chromium what it shows.

    tests/preview.py [--keep FOLDER]

The server is asked by sockets, with the program and with another in its place that is slow or dies. The page is driven by keys and
by the pointer, and the pixels of its canvas are compared with colours that are computed here, for each format, with both of its
painters. Pictures of the page are kept in FOLDER. Without Chromium (Debian: chromium) the page is skipped with a line. The program is
built first, unless the environment names one as AVSSERVE.
"""

import argparse
import base64
import http.client
import json
import os
import re
import socket
import struct
import subprocess
import sys
import tempfile
import time
import zlib

import browser
from client import FORMATS, ROOT, SECONDS, attempt, begin, colours, near, report, same, stream_of, until, write

TOOL = os.path.join(ROOT, "tools", "preview.py")
sys.path.insert(0, os.path.dirname(TOOL))
import preview  # noqa: E402

# A program in the place of avsserve, whose scripts say how it behaves: `frames N`, `seconds S` for each frame, `dies N` at a frame.
# It writes the frames that it is asked for into the file asked.txt.
STAND_IN = r'''
import os, sys, time
says = dict(it.split() for it in open(sys.argv[-2]) if it.strip())
for line in sys.stdin:
    words = line.split()
    if words == ["info"]:
        print("clip 16x8 Y8 25:1 frames", says.get("frames", 100), flush=True)
    elif words[0] == "frame":
        with open("asked.txt", "a") as asked:
            print(words[1], file=asked)
        time.sleep(float(says.get("seconds", 0)))
        if words[1] == says.get("dies"):
            sys.stdout.buffer.write(b"frame %d 128\n" % int(words[1]) + bytes(60))
            sys.stdout.flush()
            sys.stderr.write("input fault: in.y4m: Changed 1 want 9 got 4\n")
            sys.stderr.flush()
            os._exit(3)
        sys.stdout.buffer.write(b"frame %d 128\n" % int(words[1]) + bytes([int(words[1]) % 256]) * 128)
        sys.stdout.flush()
    else:
        print("bye", flush=True)
        break
'''


class Server:
    """tools/preview.py over these scripts."""

    def __init__(self, *words, no_browser=True):
        self.process = subprocess.Popen([sys.executable, TOOL, *words, *["--no-browser"] * no_browser], stdin=subprocess.DEVNULL,
                                        stdout=subprocess.PIPE, text=True)
        self.url = self.process.stdout.readline().strip()
        self.port, self.secret = re.fullmatch(r"http://127\.0\.0\.1:(\d+)/([\w-]{24})/", self.url).groups()
        self.port = int(self.port)

    def __enter__(self):
        return self

    def __exit__(self, *_):
        self.process.terminate()
        same("the preview's status", self.process.wait(SECONDS), 0)
        self.process.stdout.close()

    def ask(self, target, method="GET", headers=None):
        """The status and the body of an answer. `headers` stand in the place of the Host."""
        link = http.client.HTTPConnection("127.0.0.1", self.port, timeout=SECONDS)
        try:
            link.putrequest(method, target, skip_host=True, skip_accept_encoding=True)
            for name, value in headers if headers is not None else [("Host", f"127.0.0.1:{self.port}")]:
                link.putheader(name, value)
            link.endheaders()
            answer = link.getresponse()
            return answer.status, answer.read()
        finally:
            link.close()

    def get(self, word):
        return self.ask(f"/{self.secret}/{word}")

    def raw(self, data):
        """What comes back for some bytes, up to the end of the connection."""
        with socket.create_connection(("127.0.0.1", self.port), timeout=SECONDS) as link:
            made = b""
            try:
                link.sendall(data)
                while got := link.recv(65536):
                    made += got
            except ConnectionError:
                pass
            return made

    def clip(self, which=0):
        return json.loads(self.get("state?after=0")[1])["clips"][which]

    def until(self, what, holds, which=0):
        """The state of a script, once it is as it should be."""
        until(what, lambda: holds(self.clip(which)))
        return self.clip(which)


def stand_in():
    write("stand_in", f"#!{sys.executable}\n" + STAND_IN)
    os.chmod("stand_in", 0o755)
    return ["--program", os.path.abspath("stand_in")]


# ---- Whom the server lets in, and what it serves ----


def check_address(server):
    """It listens on the loopback alone."""
    heard = []
    for name in filter(os.path.exists, ("/proc/net/tcp", "/proc/net/tcp6")):
        with open(name, encoding="ascii") as file:
            rows = [it.split() for it in file.readlines()[1:]]
        heard += [row[1] for row in rows if row[3] == "0A" and row[1].endswith(f":{server.port:04X}")]
    same("addresses that are listened to", heard, [f"0100007F:{server.port:04X}"])
    # An address of the loopback that isn't its own.
    with socket.socket() as link:
        link.settimeout(SECONDS)
        same("a connection to 127.0.0.2", link.connect_ex(("127.0.0.2", server.port)) != 0, True)


def check_doors(server):
    """Only requests with the right Host and the secret are answered, and they get the page and nothing else."""
    own, page = ("Host", f"127.0.0.1:{server.port}"), f"/{server.secret}/"
    same("the page", server.ask(page)[0], 200)
    others = ["127.0.0.1", f"localhost:{server.port}", "evil.example", f"127.0.0.1:{server.port + 1}", f"{own[1]}.evil.example"]
    for headers in [[], [own, own], [own, ("Host", "evil.example")]] + [[("Host", it)] for it in others]:
        same(f"the page for {headers}", server.ask(page, headers=headers), (403, b"no\n"))
    for origin, status in (("http://evil.example", 403), ("null", 403), (f"http://127.0.0.1:{server.port}", 200)):
        same(f"the page for {origin}", server.ask(page, headers=[own, ("Origin", origin)])[0], status)
    other = "A" * len(server.secret)
    for target in ("/", "/state", f"/{other}/", f"/{server.secret}", f"/{server.secret[:-1]}/", f"/{server.secret}A/", "//",
                   f"/?key={server.secret}", f"/x/{server.secret}/", f"http://127.0.0.1:{server.port}/", "/%2e%2e/", "*"):
        same(f"{target} without the secret", server.ask(target), (403, b"no\n"))
    words = ["preview.py", "preview.html", "preview.js", "avsserve.py", "../tools/preview.py", "/etc/passwd", "..%2f..%2fetc/passwd",
             "%2e%2e/%2e%2e/etc/passwd", "s.avs", "in.y4m", "frame/s.avs", "state/", "frames", "reload", "."]
    for word in words:
        same(f"{word} with the secret", server.get(word), (404, b"no\n"))
    for method, target in (("POST", page), ("POST", page + "frame"), ("PUT", page), ("DELETE", page + "s.avs"), ("OPTIONS", page),
                           ("TRACE", page), ("CONNECT", "evil.example:80")):
        same(f"{method} {target}", server.ask(target, method)[0] in (403, 404, 501), True)
    link = http.client.HTTPConnection("127.0.0.1", server.port, timeout=SECONDS)
    link.request("GET", page)
    answer = link.getresponse()
    same("its policy", answer.headers["Content-Security-Policy"].split("; ")[0], "default-src 'none'")
    same("what others may see of it", [it for it in answer.headers if it.lower().startswith("access-control")], [])
    same("outside code of the page", re.findall(rb"https?:|src=|@import|\burl\(", answer.read()), [])
    link.close()


def check_browser():
    """A browser is given an address that leads to the page once."""
    write("opener", "#!/bin/sh\necho \"$1\" >opened.part && mv opened.part opened.txt\n")
    os.chmod("opener", 0o755)
    os.environ["BROWSER"] = os.path.abspath("opener")
    with Server("s.avs", no_browser=False) as server:
        until("a browser is started", lambda: os.path.exists("opened.txt"))
        with open("opened.txt", encoding="ascii") as file:
            target = file.read().strip().removeprefix(f"http://127.0.0.1:{server.port}")
        same("the secret isn't given to it", server.secret in target, False)
        same("for another host", server.ask(target, headers=[("Host", "evil.example")]), (403, b"no\n"))
        link = http.client.HTTPConnection("127.0.0.1", server.port, timeout=SECONDS)
        link.request("GET", target)
        answer = link.getresponse()
        same("where it is led", (answer.status, answer.headers["Location"]), (303, server.url))
        link.close()
        same("once more", server.ask(target), (403, b"no\n"))


def check_limits(server):
    """What a request may ask and have."""
    until("the script is open", lambda: server.clip()["info"])
    version = server.clip()["version"]
    for numbers, status in ((f"clip=0&n=1&version={version}", 200), (f"clip=0&n=3&version={version}", 409),
                            (f"clip=0&n=9999999999&version={version}", 409), (f"clip=0&n=1&version={version + 1}", 409),
                            (f"clip=1&n=1&version={version}", 404), ("clip=0&n=-1&version=x", 409), ("n=99999999999999", 409),
                            ("clip=../s.avs", 409), (f"clip=0&n=1&version={version}&file=/etc/passwd", 200)):
        same(f"frame?{numbers}", server.get("frame?" + numbers)[0], status)
    head = f"GET /{server.secret}/ HTTP/1.1\r\nHost: 127.0.0.1:{server.port}\r\n".encode()
    for what, data, wanted in (("a long line", b"GET /" + b"a" * 100_000, b""), ("a long header", head + b"X: " + b"a" * 100_000, b"431"),
                               ("many headers", head + b"X: 1\r\n" * 5000 + b"\r\n", b"431"), ("no request", b"\0\xff\r\n\r\n", b"no\n"),
                               ("a body", head + b"Content-Length: 5\r\n\r\nhello", b"403"), ("an old one", b"GET /\r\n\r\n", b"no\n"),
                               ("pieces", head + b"Transfer-Encoding: chunked\r\n\r\n5\r\nhello", b"403")):
        answer = server.raw(data)
        same(f"{what}: answer", (answer[9:12] if answer.startswith(b"HTTP/1.1") else answer, len(answer) < 1000), (wanted, True))
    # Others that say nothing, or that don't end what they say, hold nobody up, and there are so many at most.
    links = [socket.create_connection(("127.0.0.1", server.port), timeout=SECONDS) for _ in range(preview.MOST_CONNECTIONS + 20)]
    links[0].sendall(head)
    until("too many connections are closed", lambda: sum(is_closed(it) for it in links) >= 20)
    for it in links:
        it.close()
    until("the page is there again", lambda: answers(server))


def is_closed(link):
    link.setblocking(False)
    try:
        return link.recv(1, socket.MSG_PEEK) == b""
    except BlockingIOError:
        return False
    except ConnectionError:
        return True


def answers(server):
    try:
        return server.get("")[0] == 200
    except (OSError, http.client.HTTPException):
        return False


def check_turns():
    """A frame that is wanted doesn't wait for those that are asked ahead, and these are dropped with their connections."""
    write("slow.txt", "seconds 0.2\nframes 1000")
    with Server("slow.txt", *stand_in()) as server:
        version = server.until("opened", lambda it: it["info"])["version"]
        link = [socket.create_connection(("127.0.0.1", server.port), timeout=SECONDS) for _ in range(30)]
        for n, it in enumerate(link):
            it.sendall(f"GET /{server.secret}/frame?clip=0&n={n}&version={version}&ahead=1 HTTP/1.1\r\n"
                       f"Host: 127.0.0.1:{server.port}\r\n\r\n".encode())
        until("the first is made", lambda: os.path.exists("asked.txt"))
        same("a frame that is wanted", server.get(f"frame?clip=0&n=500&version={version}"), (200, bytes([500 % 256]) * 128))
        before = asked()
        same("frames before it", "500" in before and before.index("500") < 15, True)
        for it in link:
            it.close()
        for n in range(501, 507):
            same(f"frame {n}", server.get(f"frame?clip=0&n={n}&version={version}"), (200, bytes([n % 256]) * 128))
        same("frames that nobody wants any more", len(asked()) - len(before) <= 6 + 2, True)


def asked():
    with open("asked.txt", encoding="ascii") as file:
        return file.read().split()


# ---- What it reads again ----


def check_reload():
    """The script, what it imports, and a file that an error names are watched; an error has its line and the manual's text."""
    write("one.avs", 'name = "two.avs"\nImport(name)\nTrim(4, 0)\n')
    write("two.avs", "# one\nBlankClip(length=10, width=8, height=8)\n")
    with Server("one.avs") as server:
        found = server.until("opened", lambda it: it["info"])
        same("frames", found["info"]["frames"], 6)
        write("two.avs", "# one\nBlankClip(length=3, width=8, height=8)\n")
        found = server.until("the imported file is read again", lambda it: it["version"] != found["version"])
        same("an error", [found["info"]] + [found["error"][it] for it in ("kind", "name", "line", "lines")],
             [None, "BadRange", "one.avs", 3, [[1, 'name = "two.avs"'], [2, "Import(name)"], [3, "Trim(4, 0)"]]])
        same("the manual's text", "".join(it for it, _ in found["error"]["why"])[:29], "A number outside its range, a")
        write("two.avs", "# one\n\nBlankClip(length=9).Foo\n")
        found = server.until("again", lambda it: it["error"] and it["error"]["kind"] == "UnknownName")
        same("its line", (found["error"]["name"], found["error"]["line"]), ("two.avs", 3))
        write("one.avs", 'Y4MSource("later.y4m")')
        found = server.until("the script is read again", lambda it: it["error"] and it["error"]["kind"] == "NotThere")
        write("later.y4m", stream_of("YV12", 16, 8, 2)[0])
        found = server.until("the file that was missing", lambda it: it["info"])
        os.rename("one.avs", "aside.avs")
        server.until("the script is gone", lambda it: it["error"] and it["error"]["line"] == 0)
        os.rename("aside.avs", "one.avs")
        found = server.until("it is there again", lambda it: it["info"])
        same("reload", server.ask(f"/{server.secret}/reload", "POST"), (204, b""))
        server.until("it is read again", lambda it: it["version"] > found["version"] and it["info"])


def check_ends():
    """A program that dies, one that isn't there, and no script."""
    write("dies.txt", "dies 3\nframes 9")
    with Server("dies.txt", *stand_in()) as server:
        found = server.until("opened", lambda it: it["info"])
        same("a frame", server.get(f"frame?n=2&version={found['version']}"), (200, bytes([2]) * 128))
        same("a frame that kills", server.get(f"frame?n=3&version={found['version']}"), (409, b""))
        found = server.until("an error", lambda it: it["error"])
        same("its kind", (found["info"], found["error"]["kind"], found["error"]["name"]), (None, "Changed", "in.y4m"))
        same("a frame after it", server.get(f"frame?n=2&version={found['version']}"), (409, b""))
        write("dies.txt", "frames 9")
        found = server.until("opened again", lambda it: it["info"])
        same("the frame", server.get(f"frame?n=3&version={found['version']}"), (200, bytes([3]) * 128))
    for words, status in ((["none.avs", "--program", "none"], 1), ([], 2), (["a", "b", "c"], 2), (["a", "--cache", "0"], 2),
                          (["a", "--port", "70000"], 2)):
        done = subprocess.run([sys.executable, TOOL, "--no-browser", *words], capture_output=True, timeout=SECONDS, check=False)
        same(f"preview.py {words}", done.returncode, status)
    with Server("none.avs") as server:
        server.until("no script", lambda it: it["error"] and it["error"]["kind"] == "NotThere")
        write("none.avs", "BlankClip")
        server.until("it is there", lambda it: it["info"])


def check_manual():
    """Each error that docs/manual/errors.md has is found there."""
    text = preview.text_of(preview.MANUAL)
    manual = preview.Manual(text)
    parts = text.split("\n## ")
    for part, found in ((parts[1], manual.script), (parts[2], manual.input)):
        same("errors of the manual", sorted(found), sorted(re.findall(r"^\| `(\w+)", part, re.MULTILINE)))
        same("texts of the manual", [kind for kind, (_, why) in found.items() if len(why) < 10 or "|" in why.replace("\\|", "")], [])
    same("other errors", sorted(manual.others), ["no memory", "read fault", "write fault"])


# ---- What the page shows ----

PIXELS = """(() => {
  show(view.seen);
  const copy = document.createElement("canvas"), {width, height} = $("picture"), context = copy.getContext("2d");
  Object.assign(copy, {width, height});
  context.drawImage($("picture"), 0, 0);
  return [width, height, btoa(String.fromCharCode(...context.getImageData(0, 0, width, height).data))];
})()"""
CARD = "CardPainter.takesPrograms = true, paintBy(CardPainter), refresh()"
PLAIN = "paintBy(PlainPainter), refresh()"


def pixels(page):
    """The rows of the canvas, each a list of red, green and blue."""
    width, height, data = page.run(PIXELS)
    data = base64.b64decode(data)
    return [[list(data[4 * (y * width + x) :][:3]) for x in range(width)] for y in range(height)]


class Clip:
    """The frames of a stream, as numbers."""

    def __init__(self, name, width=16, height=8, frames=3):
        self.stream, (self.bits, self.across, self.down) = stream_of(name, width, height, frames)
        self.width, self.height, self.frames = width, height, []
        sides = [(width, height)] + ([(width // self.across, height // self.down)] * 2 if self.across else [])
        data, size = self.stream.split(b"\n", 1)[1], 1 if self.bits == 8 else 2
        for n in range(frames):
            at, planes = n * (6 + size * sum(w * h for w, h in sides)) + 6, []
            for w, h in sides:
                planes.append(struct.unpack_from(f"<{w * h}{'BH'[size - 1]}", data, at))
                at += w * h * size
            self.frames.append(planes)

    def samples(self, n, x, y):
        planes = self.frames[n]
        if not self.across:
            return [planes[0][y * self.width + x]]
        at = y // self.down * (self.width // self.across) + x // self.across
        return [planes[0][y * self.width + x], planes[1][at], planes[2][at]]

    def colour(self, n, x, y, matrix="601", full=False, plane=0):
        samples = self.samples(n, x, y)
        middle = 1 << self.bits - 1
        y, u, v = samples if self.across else samples + [middle, middle]
        if plane:
            return [255 * (y, u, v)[plane - 1] / ((1 << self.bits) - 1)] * 3
        return colours(y, u, v, self.bits, matrix, full)


def shows(what, page, clip, n, **how):
    """Compares the canvas with a frame."""
    found = pixels(page)
    same(f"{what}: size", (len(found[0]), len(found)), (clip.width, clip.height))
    bad = [(x, y, found[y][x], clip.colour(n, x, y, **how)) for y in range(len(found)) for x in range(len(found[0]))
           if not near(found[y][x], clip.colour(n, x, y, **how))]
    same(f"{what}: pixels that differ", bad[:3], [])


def seen(page, n):
    page.until(f"view.seen === {n} && view.n === {n}")


def becomes(what, page, expression, wanted):
    """Waits until something on the page is as it should be, and tells what it was instead."""
    deadline = time.monotonic() + SECONDS
    while page.run(expression) != wanted and time.monotonic() < deadline:
        time.sleep(0.01)
    same(what, page.run(expression), wanted)


def reopened(page, act, condition="clips[0].info && view.seen === view.n"):
    """Does something to the script, and waits until the page shows it."""
    version = page.run("clips[0].version")
    act()
    page.until(f"clips[0].version > {version} && {condition}")


def check_formats(page):
    """The pixels of each format, of each plane alone, in each matrix and range, by both painters."""
    for name in FORMATS:
        clip = Clip(name)
        write(f"{name}.y4m", clip.stream)
        reopened(page, lambda: write("page.avs", f'Y4MSource("{name}.y4m")'))
        for kind, paint in (("CardPainter", CARD), ("PlainPainter", PLAIN)):
            page.run(paint)
            same(f"{name}: painter", page.run("painter.constructor.name"), kind)
            for n in (2, 0):
                page.run(f"seek({n})")
                seen(page, n)
                shows(f"{name} {kind} {n}", page, clip, n)
            for plane, key in ((1, "y"), (2, "u"), (3, "v")):
                page.key(key)
                shows(f"{name} {kind} plane {plane}", page, clip, 0, plane=plane)
            page.key("c")
            if kind == "PlainPainter":
                page.run("painter.prepare(frameAt(clips[0], 0), view.plane, view)")
                page.until("frameAt(clips[0], 0).made")
                shows(f"{name} by the worker", page, clip, 0)
            for key, how in (("r", {"full": True}), ("m", {"full": True}), ("m", {"full": True, "matrix": "709"}),
                             ("r", {"matrix": "709"}), ("m", {})):
                page.key(key)
                shows(f"{name} {kind} {how}", page, clip, 0, **how)
        check_numbers(page, name, clip)


def check_numbers(page, name, clip):
    """The samples below the pointer, and what the scopes count."""
    box = page.run("(({left, top}) => ({left, top, ...where(), stageLeft: left, stageTop: top}))(stage.getBoundingClientRect())")
    for x, y in ((0, 0), (clip.width - 1, clip.height - 1), (7, 3)):
        page.mouse("mouseMoved", box["stageLeft"] + box["left"] + (x + 0.5) * box["scale"],
                   box["stageTop"] + box["top"] + (y + 0.5) * box["scale"])
        wanted = [f"{letter} {value}" for letter, value in zip("YUV", clip.samples(0, x, y))] + [f"x {x}", f"y {y}"]
        same(f"{name}: samples at {x} {y}", re.sub(r" +", " ", page.run("$('readout').textContent")), " ".join(wanted))
    luma = clip.frames[0][0]
    becomes(f"{name}: numbers", page, "$('numbers').textContent",
            f"least {min(luma)}   most {max(luma)}   mean {sum(luma) / len(luma):.1f}")
    lit = page.run("""(() => { const {data} = $("waveform").getContext("2d").getImageData(0, 0, 256, 256), made = [];
        for (let x = 0; x < 256; x += 16) for (let y = 0; y < 256; y++) if (data[4 * (y * 256 + x + 8) + 1] > 59) made.push([x / 16, 255 - y]);
        return made; })()""")
    levels = {(x, luma[y * clip.width + x] >> clip.bits - 8) for y in range(clip.height) for x in range(clip.width)}
    same(f"{name}: waveform", {tuple(it) for it in lit} - {(x, level) for x in range(16) for level in (16, 235)},
         levels - {(x, level) for x in range(16) for level in (16, 235)})


def check_seeks(page):
    """Every way to a frame."""
    write("long.y4m", Clip("Y8", 16, 8, 200).stream)
    reopened(page, lambda: write("page.avs", 'Y4MSource("long.y4m").AssumeFPS(20)'))
    page.key("Home")
    seen(page, 0)
    for key, shift, n in (("ArrowRight", False, 1), ("ArrowRight", True, 11), ("ArrowLeft", False, 10), ("ArrowLeft", True, 0),
                          ("ArrowLeft", False, 0), ("PageDown", False, 20), ("PageDown", False, 40), ("PageUp", False, 20),
                          ("End", False, 199), ("ArrowRight", False, 199), ("Home", False, 0)):
        page.key(key, shift)
        seen(page, n)
        same(f"{key}: number and slider", page.run("[$('number').value, $('slider').value]"), [str(n), str(n)])
    for typed, n in (("137", 137), ("5", 5), ("9999", 199)):
        page.keys(typed)
        page.key("Enter")
        seen(page, n)
    page.keys("42")
    page.key("Escape")
    same("a number that isn't entered", page.run("[view.n, $('number').value]"), [199, "199"])
    same("time", page.run("$('time').textContent"), "0:00:09.950")
    box = page.run("(({left, top, width, height}) => ({left, top, width, height}))($('slider').getBoundingClientRect())")
    place = {"x": box["left"] + box["width"] / 2, "y": box["top"] + box["height"] / 2, "button": "left", "clickCount": 1}
    page.mouse("mousePressed", **place)
    page.mouse("mouseReleased", **place)
    page.until("view.seen === view.n && Math.abs(view.n - 99.5) < 2")
    page.key("ArrowRight")
    page.until("view.seen === view.n && Math.abs(view.n - 100.5) < 2")
    # Many seeks at once end at the last.
    page.run("for (let i = 0; i < 150; i++) seek(i * 37 % 200)")
    seen(page, 149 * 37 % 200)


def check_play(page):
    """Frames come in their order, not faster than the clip's rate, up to the end."""
    page.key("Home")
    seen(page, 0)
    page.run("window.shown = []; stage.addEventListener('shown', it => shown.push([it.detail, performance.now()]))")
    page.keys("170")
    page.key("Enter")
    seen(page, 170)
    page.run("shown.length = 0")
    page.key(" ")
    same("it plays", page.run("Boolean(play)"), True)
    page.until("!play")
    found = page.run("shown")
    numbers = sorted({n for n, _ in found})
    same("frames that were shown", (numbers, [n for n, _ in found] == sorted(n for n, _ in found)), (list(range(170, 200)), True))
    first, last = (min(time for n, time in found if n == it) for it in (171, 199))
    same("not faster than its rate", last - first > 28 * 50 - 40, True)
    page.keys("100")
    page.key("Enter")
    page.key(" ")
    page.until("view.n > 103")
    page.key(" ")
    same("it stops", page.run("Boolean(play)"), False)


def check_zoom(page):
    """Sizes on the page, and that nothing is smoothed where the picture isn't made smaller."""
    write("large.y4m", Clip("Y8", 800, 1000, 1).stream)
    reopened(page, lambda: write("page.avs", 'Y4MSource("large.y4m")'))
    look = "(it => [it.getBoundingClientRect().width, it.getBoundingClientRect().height, it.style.imageRendering])($('picture'))"
    width, height, smooth = page.run(look)
    high = page.run("stage.clientHeight")
    same("the whole picture", (round(height), round(width), smooth), (high, round(high * 0.8), "auto"))
    for key, scale in (("+", 1), ("+", 2), ("+", 4), ("+", 8), ("+", 8), ("-", 4), ("-", 2), ("-", 1)):
        page.key(key)
        same(f"zoom {scale}", page.run(look), [800 * scale, 1000 * scale, "pixelated"])
    page.key("+")
    box = page.run("(({left, top}) => [left, top])(stage.getBoundingClientRect())")
    before = page.run("[where().left, where().top]")
    page.mouse("mouseMoved", box[0] + 200, box[1] + 200)
    page.mouse("mousePressed", box[0] + 200, box[1] + 200, button="left", buttons=1, clickCount=1)
    page.mouse("mouseMoved", box[0] + 150, box[1] + 230, button="left", buttons=1)
    page.mouse("mouseReleased", box[0] + 150, box[1] + 230, button="left", clickCount=1)
    same("after a drag", page.run("[where().left, where().top]"), [before[0] - 50, before[1] + 30])
    # The place below the pointer stays where it is.
    point = "(it => [Math.round((150 - it.left) / it.scale), Math.round((230 - it.top) / it.scale)])(where())"
    below = page.run(point)
    page.mouse("mouseWheel", box[0] + 150, box[1] + 230, deltaX=0, deltaY=-120)
    page.until("view.zoom === 4")
    same("the place below the wheel", page.run(point), below)
    page.key("f")
    same("the whole picture again", page.run("view.zoom"), 0)


def check_errors(page, keep):
    """An error shows its line, and the picture comes back at its frame."""
    clip = Clip("YV12", 48, 36, 9)
    write("nine.y4m", clip.stream)
    text = "# nine frames\nY4MSource({})\n{}\nTrim(0, 0)\n"
    reopened(page, lambda: write("page.avs", text.format('"nine.y4m"', "Crop(0, 0, 0, 0)")))
    page.keys("7")
    page.key("Enter")
    seen(page, 7)
    reopened(page, lambda: write("page.avs", text.format('"nine.y4m"', "Croq(0, 0, 0, 0)")), "!$('error').hidden")
    card = page.run("$('error').innerText")
    same("the error", [it in card for it in ("UnknownName", "page.avs, line 3", "Trim(0, 0)", "# nine frames", "a slip")], [True] * 5)
    same("its line", page.run("$('error').querySelector('.here').textContent"), "3Croq(0, 0, 0, 0)")
    keep(page, "error")
    reopened(page, lambda: write("page.avs", text.format('"none.y4m"', "")), "!$('error').hidden")
    same("an input", ["NotThere" in page.run("$('error').innerText"), "none.y4m" in page.run("$('error').innerText")], [True, True])
    reopened(page, lambda: write("page.avs", 'Assert(false, "<b>not & bold</b>")'), "!$('error').hidden")
    same("a message", "<b>not & bold</b>" in page.run("$('error').innerText"), True)
    reopened(page, lambda: write("page.avs", text.format('"nine.y4m"', "FlipVertical")))
    same("mended", page.run("[$('error').hidden, view.n]"), [True, 7])
    flipped = [row for row in reversed(pixels(page))]
    same("the picture", all(near(flipped[y][x], clip.colour(7, x, y)) for y in range(0, 36, 5) for x in range(0, 48, 5)), True)
    write("part.avs", "Trim(0, 3)")
    reopened(page, lambda: write("page.avs", 'Y4MSource("nine.y4m")\nImport("part.avs")'))
    same("a shorter clip", page.run("[$('slider').value, frameAt(clips[0], view.seen).n]"), ["3", 3])
    reopened(page, lambda: write("part.avs", "Trim(0, 8)"))
    shows("the frame from before", page, clip, 7)


def check_words(page):
    """Help, what the clip is, the matrix by height, scopes that are hidden, and a picture that is saved."""
    page.key("?")
    same("help", page.run("[$('help').hidden, $('help').innerText.includes('histogram')]"), [False, True])
    page.key("Escape")
    same("help closed", page.run("$('help').hidden"), True)
    for height, matrix in ((718, "601"), (720, "709")):
        reopened(page, lambda: write("page.avs", f"BlankClip(length=2, width=2, height={height}, color_yuv=$505AF0)"))
        same(f"{height} lines", near(pixels(page)[height // 2][1], colours(80, 90, 240, 8, matrix, False)), True)
    same("what the clip is", page.run("$('what').textContent"), "2 × 720   YV12   8 bits   24 fps   2 frames")
    reopened(page, lambda: page.key("l"))
    for key, box in (("w", "waveformBox"), ("h", "histogramBox")):
        page.key(key)
        same(f"{box} hidden", page.run(f"$('{box}').hidden"), True)
    same("the scopes hidden", page.run("$('scopes').hidden"), True)
    page.keys("wh")
    clip = Clip("YUV422P10", 32, 24, 2)
    write("save.y4m", clip.stream)
    reopened(page, lambda: write("page.avs", 'Y4MSource("save.y4m")'))
    page.call("Browser.setDownloadBehavior", behavior="allow", downloadPath=os.getcwd())
    page.key("p")
    until("the picture is saved", lambda: os.path.exists("page-1.png") and os.path.getsize("page-1.png"))
    rows = png_rows("page-1.png")
    same("the saved picture", all(near(rows[y][x], clip.colour(1, x, y)) for y in range(24) for x in range(32)), True)


def png_rows(name):
    """The rows of a PNG of 8 bits in colour, each a list of red, green and blue."""
    with open(name, "rb") as file:
        data = file.read()
    at, packed = 8, b""
    while at < len(data):
        size, kind = struct.unpack_from(">I4s", data, at)
        body = data[at + 8 : at + 8 + size]
        if kind == b"IHDR":
            width, height, _, colour = struct.unpack_from(">IIBB", body)
        packed += body if kind == b"IDAT" else b""
        at += 12 + size
    samples, rows = {2: 3, 6: 4}[colour], zlib.decompress(packed)
    size, before, made = width * samples, bytes(width * samples), []
    for y in range(height):
        kind, row = rows[y * (size + 1)], bytearray(rows[y * (size + 1) + 1 : (y + 1) * (size + 1)])
        for i in range(size):
            left, up, corner = (row[i - samples] if i >= samples else 0), before[i], (before[i - samples] if i >= samples else 0)
            paeth = min((left, up, corner), key=lambda it: (abs(left + up - corner - it)))
            row[i] = (row[i] + (0, left, up, (left + up) // 2, paeth)[kind]) & 255
        before = bytes(row)
        made.append([list(row[x : x + 3]) for x in range(0, size, samples)])
    return made


def check_painters(page, _):
    """The graphics card that is lost, and a picture that is too large for it."""
    clip = Clip("YUV420P12", 32, 24, 2)
    write("card.y4m", clip.stream)
    reopened(page, lambda: write("page.avs", 'Y4MSource("card.y4m")'))
    page.key("Home")
    seen(page, 0)
    for lose in ("painter.gl.getExtension('WEBGL_lose_context').loseContext()", "painter.most = 31, refresh()"):
        page.run(CARD)
        same("before", page.run("painter.constructor.name"), "CardPainter")
        page.run(lose)
        page.until("painter instanceof PlainPainter && view.seen === 0")
        shows("after", page, clip, 0)


def check_two(keep):
    """Two scripts: swapped, split and compared, by both painters. They differ in size, format, bits and frames."""
    one, other = Clip("YV12", 32, 24, 4), Clip("YUV444P10", 24, 30, 3)
    write("one.y4m", one.stream)
    write("other.y4m", other.stream)
    write("a.avs", 'Y4MSource("one.y4m")')
    write("b.avs", 'Y4MSource("other.y4m")')
    with Server("a.avs", "b.avs") as server, browser.Browser() as page:
        page.open(server.url)
        page.until("view.seen === 0")
        for kind, paint in (("card", CARD), ("plain", PLAIN)):
            page.run(paint)
            page.run("seek(2)")
            seen(page, 2)
            shows(f"{kind}: the first script", page, one, 2)
            page.key("x")
            seen(page, 2)
            shows(f"{kind}: the second script", page, other, 2)
            page.key("x")
            page.key("s")
            page.until("view.seen === 2")
            box = page.run("(({left, top}) => [left + where().left, top + where().top, where().scale])(stage.getBoundingClientRect())")
            page.mouse("mouseMoved", box[0] + 10 * box[2], box[1] + 10 * box[2])
            same(f"{kind}: split", [compare(pixels(page), one, other, lambda x: x < 10)], [[]])
            page.key("d")
            page.until("view.seen === 2")
            same(f"{kind}: difference", differ(pixels(page), one, other), [])
            page.key("d")
        page.key("End")
        seen(page, 3)
        page.key("x")
        page.until("view.seen === 3")
        shows("the second script past its end", page, other, 2)
        page.key("s")
        page.until("view.seen === 3")
        keep(page, "split")
        same("complaints", of_scripts(page.complaints()), [])


def compare(found, one, other, is_first):
    """The pixels that aren't those of the one script or the other, where their picture ends at black."""
    bad = []
    for y, row in enumerate(found):
        for x, colour in enumerate(row):
            of = one if is_first(x) else other
            wanted = of.colour(2, x, y) if x < of.width and y < of.height else [0, 0, 0]
            if not near(colour, wanted):
                bad.append((x, y, colour, wanted))
    return bad[:3]


def differ(found, one, other):
    """The pixels that aren't eight times the difference."""
    bad = []
    for y, row in enumerate(found):
        for x, colour in enumerate(row):
            a, b = (it.colour(2, x, y) if x < it.width and y < it.height else [0, 0, 0] for it in (one, other))
            wanted = [min(255, 8 * abs(p - q)) for p, q in zip(a, b)]
            if not all(abs(p - q) <= 0.6 for p, q in zip(colour, wanted)):
                bad.append((x, y, colour, wanted))
    return bad[:3]


def check_slow_page(_):
    """The page asks for what is wanted before all else, and says it when a program dies and when the server ends."""
    write("slow.txt", "seconds 0.1\nframes 1000")
    write("asked.txt", "")
    with browser.Browser() as page:
        with Server("slow.txt", *stand_in()) as server:
            page.open(server.url)
            page.until("view.seen === 0 && kept.size >= 4")
            before = len(asked())
            page.run("seek(600); seek(700); seek(800)")
            seen(page, 800)
            same("frames on the way to a seek", "700" not in asked() and asked().index("800") - before <= 2, True)
            write("slow.txt", "frames 900\ndies 850")
            page.until("clips[0].info && clips[0].info.frames === 900")
            page.run("seek(850)")
            page.until("!$('error').hidden")
            same("a program that dies", "Changed" in page.run("$('error').innerText"), True)
            write("slow.txt", "frames 900")
            seen(page, 850)
        page.until("gone")
        same("the server has ended", page.run("$('what').textContent"), "The preview has ended. Start it again.")


def of_scripts(complaints):
    """Complaints but for those on speed, and of the answer 409 where a script is read again."""
    return [it for it in complaints if not re.search("GL Driver Message|willReadFrequently|409", it)]


def check_page(keep):
    write("page.avs", "BlankClip(length=3, width=16, height=8)")
    with Server("page.avs") as server, browser.Browser() as page:
        page.open(server.url)
        page.until("view.seen === 0")
        for check in (check_formats, check_seeks, check_play, check_zoom, check_words):
            attempt(check, page)
        for check in (check_errors, check_painters):
            attempt(check, page, keep)
        keep(page, "page")
        same("complaints", of_scripts(page.complaints()), [])


def keeper(folder):
    """What keeps a picture of the page, where a folder for it was named."""
    def keep(page, name):
        if folder:
            page.picture(os.path.join(folder, f"{name}.png"))
    return keep


def main():
    parser = argparse.ArgumentParser()
    parser.add_argument("--keep", metavar="FOLDER")
    keep_in = parser.parse_args().keep
    keep_in = keep_in and os.path.abspath(keep_in)
    begin()
    with tempfile.TemporaryDirectory() as folder:
        os.chdir(folder)
        write("in.y4m", stream_of("YV12", 16, 8, 3)[0])
        with Server(write("s.avs", 'Y4MSource("in.y4m")')) as server:
            for check in (check_address, check_doors, check_limits):
                attempt(check, server)
        for check in (check_browser, check_turns, check_reload, check_ends, check_manual):
            attempt(check)
        if browser.find():
            for check in (check_page, check_two, check_slow_page):
                attempt(check, keeper(keep_in))
        else:
            print("preview: the page skipped, chromium is not installed")
        os.chdir(ROOT)
    return report("preview", "of the server and of its page in a browser" if browser.find() else "of the server")


if __name__ == "__main__":
    sys.exit(main())
