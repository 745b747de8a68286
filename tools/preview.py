#!/usr/bin/env python3
"""Shows the clip of a script in a browser, and shows it again whenever the script changes.

    tools/preview.py SCRIPT [SCRIPT] [--port N] [--no-browser] [--cache C] [--program PROGRAM]

It prints the address of a page, opens it in a browser where there is a screen, and serves it until Ctrl-C. A second script is compared with the first.
The page is preview.html beside this file, and tools/avsserve.py gives it the frames; the program is found as it says there.

Nobody else is let in: the server listens on 127.0.0.1 alone, a request has to name this address as its Host and to begin with the
secret of the printed address, there is one page and no other file, no part of a request becomes a path, and what is read of a
request has a limit. It needs Python 3.9 and nothing else.
"""

import argparse
import base64
import contextlib
import hashlib
import hmac
import http.client
import http.server
import json
import os
import re
import secrets
import select
import signal
import socket
import stat
import sys
import threading
import traceback
import webbrowser

import avsserve

HERE = os.path.dirname(os.path.abspath(__file__))
PAGE = os.path.join(HERE, "preview.html")
MANUAL = os.path.join(os.path.dirname(HERE), "docs", "manual", "errors.md")
ADDRESS = "127.0.0.1"
LONGEST_REQUEST = 8192  # bytes of its lines
MOST_CONNECTIONS = 64
IDLE = 60  # seconds without a request, after which a connection is closed
STATE_WAITS = 20  # seconds that a question for news is kept
LARGEST_SCRIPT = 1 << 20  # bytes, as the program has it
MOST_FILES = 200  # that are watched for a script
LOOK_EVERY = 0.15  # seconds between two looks at the files
SCREENS = ("DISPLAY", "WAYLAND_DISPLAY", "BROWSER")
ENOUGH_ANSWERS = 50_000  # of a session, whose program keeps a journal of them, before the next is opened
NEIGHBOURS = 3  # lines that are shown before and after the line of an error


class Turns:
    """A lock. Its next owner is the first that waits in a hurry, or else the first that waits."""

    def __init__(self):
        self.changed, self.taken, self.hurried, self.others = threading.Condition(), False, [], []

    @contextlib.contextmanager
    def turn(self, hurry):
        me, line = object(), self.hurried if hurry else self.others
        with self.changed:
            line.append(me)
            self.changed.wait_for(lambda: not self.taken and (self.hurried or self.others)[0] is me)
            line.remove(me)
            self.taken = True
        try:
            yield
        finally:
            with self.changed:
                self.taken = False
                self.changed.notify_all()


class News:
    """A number that rises whenever something changed that the page should know."""

    def __init__(self):
        self.changed, self.number = threading.Condition(), 1

    def tell(self):
        with self.changed:
            self.number += 1
            self.changed.notify_all()

    def after(self, number, seconds):
        """Waits until there is something newer than `number`, at most so long."""
        with self.changed:
            self.changed.wait_for(lambda: self.number != number, seconds)
            return self.number


def text_of(name):
    """The text of a script, or "" where there is none."""
    try:
        kind = os.stat(name)
        # A fifo or a device may never answer.
        if not stat.S_ISREG(kind.st_mode) or kind.st_size > LARGEST_SCRIPT:
            return ""
        with open(name, "rb") as file:
            data = file.read(LARGEST_SCRIPT + 1)
    except (OSError, ValueError):
        return ""
    return "" if len(data) > LARGEST_SCRIPT or data.startswith(b"YUV4MPEG2") else data.decode("utf-8-sig", "replace")


def files_of(script):
    """A script and the files that it may import: those that a text in it names, and so on. A name may be kept in a variable, so
    every text counts that is the name of a file of a script's size."""
    found, left = [script], [script]
    while left and len(found) < MOST_FILES:
        text = text_of(left.pop())
        if not re.search("import", text, re.IGNORECASE):
            continue
        for long, short in re.findall(r'"""(.*?)"""|"([^"]*)"', text, re.DOTALL):
            name = long or short
            if name not in found and len(found) < MOST_FILES and text_of(name):
                found.append(name)
                left.append(name)
    return found


def stamp(name):
    """What changes when a file is written anew."""
    try:
        it = os.stat(name)
        return it.st_mtime_ns, it.st_size, it.st_ino
    except (OSError, ValueError):
        return None


class Manual:
    """What docs/manual/errors.md says of each error: a line that causes it, and why and what to do. Where the file isn't there it
    says nothing."""

    def __init__(self, text):
        parts = {it.split("\n", 1)[0]: it for it in text.split("\n## ")}
        self.script, self.input = (self.rows(parts.get(f"Errors of {it}", "")) for it in ("a script", "an input"))
        others = parts.get("Errors without a name", "")
        self.others = dict(re.findall(r"^`(\w+ \w+)`, status \d: (.*?)\n\n", others, re.DOTALL | re.MULTILINE))

    @staticmethod
    def rows(part):
        cells = [re.split(r"(?<!\\) \| ", line.strip("| ")) for line in part.split("\n") if line.startswith("| `")]
        return {re.match(r"`(\w+)", it[0])[1]: (it[1].strip("`").replace("\\|", "|"), it[2]) for it in cells if len(it) == 3}

    def of(self, error):
        """Of an error: a line that causes it or "", and the text."""
        if isinstance(error, avsserve.ScriptError):
            return self.script.get(error.kind, ("", ""))
        if isinstance(error, avsserve.InputError):
            return self.input.get(error.kind, ("", ""))
        return "", self.others.get(error.said, "")


def plain(text):
    """A text of the manual in pieces, each with whether it is code. A link becomes the name of its file."""
    def named(link):
        return f"{link[1]} (docs/manual/{link[2] or 'errors'}.md)"

    text = re.sub(r"\[([^]]*)\]\(([\w-]*)[^)]*\)", named, " ".join(text.split()))
    return [[piece, at % 2 == 1] for at, piece in enumerate((text[:1].upper() + text[1:]).split("`")) if piece]


def told(error, manual):
    """An error as the page shows it: its kind, where it is, the lines of the script there, and what the manual says."""
    example, why = manual.of(error)
    name, line = getattr(error, "name", ""), getattr(error, "line", 0)
    lines = []
    if line:
        every = re.split(r"\r\n|\r|\n", text_of(name).rstrip("\r\n"))
        first = max(line - NEIGHBOURS, 1)
        lines = [[first + at, it[:400]] for at, it in enumerate(every[first - 1 : line + NEIGHBOURS])]
    kind = getattr(error, "kind", "") or (error.said if error.said in manual.others else type(error).__name__)
    return {"kind": kind, "name": name, "line": line, "lines": lines,
            "text": getattr(error, "text", "") or getattr(error, "detail", ""), "said": str(error)[:2000],
            "example": example if isinstance(error, avsserve.ScriptError) else "", "why": plain(why)}


class Clip:
    """A script, its session or its error, and the files that are watched. `version` rises with each session."""

    def __init__(self, script, options, manual, news):
        self.script, self.options, self.manual, self.news = script, options, manual, news
        self.turns, self.lock, self.wakes = Turns(), threading.Lock(), threading.Event()
        self.version, self.session, self.error, self.answers, self.ended = 0, None, None, 0, False
        self.stamps = {}
        self.watcher = threading.Thread(target=self.watch, daemon=True)

    def watch(self):
        """Opens the script, and opens it again after each change."""
        while not self.ended:
            self.open()
            while not (self.wakes.wait(LOOK_EVERY) or self.has_changed()):
                pass
            self.wakes.clear()
            self.settle()

    def has_changed(self):
        return any(stamp(name) != kept for name, kept in self.stamps.items())

    def settle(self):
        """Waits for an editor that is still writing, or that has put the file aside to write it anew."""
        for _ in range(10):
            before = [stamp(it) for it in self.stamps]
            if self.ended or self.wakes.wait(0.05):
                break
            if before == [stamp(it) for it in self.stamps] and stamp(self.script):
                break

    def open(self):
        # The stamps are older than what is read, so that no change is missed.
        stamps = {it: stamp(it) for it in files_of(self.script)}
        session, error = None, None
        try:
            session = avsserve.Session(self.script, self.options.cache, self.options.program)
        except avsserve.AvsserveError as found:
            error = told(found, self.manual)
            stamps.setdefault(error["name"], stamp(error["name"]))
        with self.lock:
            self.stamps = stamps
            before = self.take(session, error)
        if before:
            before.close()
        self.news.tell()

    def take(self, session, error):
        """Puts a session, or an error, in the place of the session that there was, which is given back."""
        before, self.session, self.error = self.session, session, error
        self.version, self.answers = self.version + 1, 0
        if self.ended and session:
            session.close()
        return before

    def close(self):
        self.ended = True
        self.wakes.set()
        with self.lock:
            before = self.take(None, None)
        if before:
            before.close()

    def frame(self, n, version, hurry, is_wanted):
        """Frame `n` as bytes; None where the session of this version is over, or nobody wants it any more."""
        with self.turns.turn(hurry):
            with self.lock:
                session = self.session if self.version == version else None
            if not session or not is_wanted():
                return None
            try:
                made = session.frame(n)
            except avsserve.RangeRefused:
                return None
            except avsserve.AvsserveError as error:
                self.fail(session, error)
                return None
            self.answers += 1
            if self.answers == ENOUGH_ANSWERS:
                self.wakes.set()
            return made.data

    def fail(self, session, error):
        """The session ended by an error, unless another has taken its place."""
        error = told(error, self.manual)
        with self.lock:
            if self.session is not session:
                return
            self.stamps[error["name"]] = stamp(error["name"])
            self.take(None, error)
        session.close()
        self.news.tell()

    def state(self):
        with self.lock:
            info = self.session.info if self.session else None
            made = {"name": os.path.basename(self.script), "version": self.version, "info": None, "error": self.error}
        if info:
            made["info"] = dict(info._asdict(), rate=[info.rate.numerator, info.rate.denominator], planes=info.planes)
        return made


class Limited:
    """What a connection sends, of which a request may have so many bytes."""

    def __init__(self, file):
        self.file, self.left = file, LONGEST_REQUEST

    def readline(self, size=-1):
        line = self.file.readline(self.left + 1 if size < 0 else min(size, self.left + 1))
        self.left -= len(line)
        if self.left < 0:
            raise http.client.LineTooLong("request")
        return line

    def close(self):
        self.file.close()


OPENED = object()  # in the place of a word, for the address that a browser was given


def is_same(text, secret):
    """Whether these are the same, in a time that doesn't tell how much of them is."""
    return hmac.compare_digest(text.encode(errors="replace"), secret.encode())


class Handler(http.server.BaseHTTPRequestHandler):
    """A connection of the page."""

    protocol_version, server_version, sys_version = "HTTP/1.1", "preview", ""
    timeout, disable_nagle_algorithm = IDLE, True

    def setup(self):
        super().setup()
        self.rfile = Limited(self.rfile)

    def handle_one_request(self):
        self.rfile.left = LONGEST_REQUEST
        try:
            super().handle_one_request()
        except (OSError, http.client.LineTooLong):
            self.close_connection = True  # it went away, or its first line has no end

    def log_message(self, format, *arguments):
        pass

    def send_error(self, code, message=None, explain=None):
        """Nothing of the request comes back."""
        self.close_connection = True
        self.reply(code, b"no\n", "text/plain")

    def reply(self, code, body=b"", kind="application/octet-stream", **more):
        self.send_response(code)
        for name, value in dict({"Content-Type": kind, "Content-Length": len(body), "Cache-Control": "no-store",
                                 "X-Content-Type-Options": "nosniff", "Referrer-Policy": "no-referrer",
                                 "Cross-Origin-Resource-Policy": "same-origin"}, **more).items():
            self.send_header(name, str(value))
        if self.close_connection:
            self.send_header("Connection", "close")
        self.end_headers()
        self.connection.sendall(body)

    def asked(self):
        """The word that follows the secret in a request, and its numbers. None where the request isn't of the page."""
        own = f"{ADDRESS}:{self.server.server_port}"
        if self.headers.get_all("Host") != [own] or self.headers.get("Origin", f"http://{own}") != f"http://{own}":
            return None
        if self.headers.get("Content-Length", "0") != "0" or "Transfer-Encoding" in self.headers:
            return None
        target, _, query = self.path.partition("?")
        secret, slash, word = target[1:].partition("/")
        if slash and not word and self.server.opens(secret):
            return OPENED, {}
        if not slash or not is_same(secret, self.server.secret):
            return None
        numbers = dict(re.findall(r"(\w+)=(\d{1,10})(?:&|$)", query, re.ASCII))
        return word, {name: int(value) for name, value in numbers.items()}

    def answer(self, words):
        found = self.asked()
        if not found or found[0] not in words:
            self.send_error(404 if found else 403)
        else:
            words[found[0]](found[1])

    def do_GET(self):
        self.answer({OPENED: self.put_place, "": self.put_page, "state": self.put_state, "frame": self.put_frame})

    def do_POST(self):
        self.answer({"reload": self.put_reload})

    def put_place(self, _):
        self.reply(303, Location=self.server.url)

    def put_page(self, _):
        page, policy = self.server.page
        self.reply(200, page, "text/html; charset=utf-8", **{"Content-Security-Policy": policy})

    def put_state(self, numbers):
        number = self.server.news.after(numbers.get("after", 0), STATE_WAITS)
        state = {"number": number, "clips": [it.state() for it in self.server.clips]}
        self.reply(200, json.dumps(state).encode(), "application/json")

    def put_reload(self, _):
        for it in self.server.clips:
            it.wakes.set()
        self.reply(204)

    def put_frame(self, numbers):
        which, n, version = (numbers.get(it, 0) for it in ("clip", "n", "version"))
        if which >= len(self.server.clips):
            self.send_error(404)
            return
        data = self.server.clips[which].frame(n, version, not numbers.get("ahead"), self.is_there)
        if data is None:
            self.reply(409)
        else:
            self.reply(200, data)

    def is_there(self):
        """Whether the page still waits for its answer."""
        try:
            return not select.select([self.connection], [], [], 0)[0] or self.connection.recv(1, socket.MSG_PEEK) != b""
        except OSError:
            return False


class Server(http.server.ThreadingHTTPServer):
    """The page, the clips and the secret."""

    daemon_threads, allow_reuse_address = True, True

    def __init__(self, port, clips, news):
        super().__init__((ADDRESS, port), Handler)
        self.clips, self.news, self.page, self.lock = clips, news, page_and_policy(), threading.Lock()
        self.secret = secrets.token_urlsafe(18)
        self.url = f"http://{ADDRESS}:{self.server_port}/{self.secret}/"
        self.places = threading.BoundedSemaphore(MOST_CONNECTIONS)
        self.once = []

    def url_once(self):
        """An address that leads to the page once. Others can see the arguments of a browser, so it isn't given the secret."""
        self.once.append(secrets.token_urlsafe(18))
        return f"http://{ADDRESS}:{self.server_port}/{self.once[0]}/"

    def opens(self, secret):
        with self.lock:
            return bool(self.once) and is_same(secret, self.once[0]) and bool(self.once.pop())

    def process_request(self, request, client_address):
        if self.places.acquire(blocking=False):
            super().process_request(request, client_address)
        else:
            self.shutdown_request(request)

    def process_request_thread(self, request, client_address):
        try:
            super().process_request_thread(request, client_address)
        finally:
            self.places.release()

    def handle_error(self, request, client_address):
        if not isinstance(sys.exc_info()[1], OSError):
            traceback.print_exc()


def page_and_policy():
    """The page with its scripts inside it, and what a browser may do for it: run these and ask its own server."""
    def script(found):
        return b"<script>\n" + read(os.path.join(HERE, found[1].decode())) + b"</script>"

    def allowed(tag):
        found = re.findall(rb"<%b>(.*?)</%b>" % (tag, tag), page, re.DOTALL)
        return " ".join(f"'sha256-{base64.b64encode(hashlib.sha256(it).digest()).decode()}'" for it in found)

    page = re.sub(rb'<script src="(\w+\.js)"></script>', script, read(PAGE))
    return page, (f"default-src 'none'; script-src {allowed(b'script')}; style-src {allowed(b'style')}; connect-src 'self'; "
                  "worker-src blob:; img-src data: blob:; base-uri 'none'; form-action 'none'; frame-ancestors 'none'")


def read(name):
    with open(name, "rb") as file:
        return file.read()


def end(*_):
    raise KeyboardInterrupt


def main():
    parser = argparse.ArgumentParser(description="Shows the clip of a script in a browser, and again whenever the script changes.")
    parser.add_argument("scripts", metavar="SCRIPT", nargs="+", help="one, or two that are compared")
    parser.add_argument("--port", metavar="N", type=int, default=0, help="of the page, by default one that is free")
    parser.add_argument("--no-browser", action="store_true", help="only print the page's address")
    parser.add_argument("--cache", metavar="C", type=int, default=64, help="frames that each program keeps, 1 to 256, by default 64")
    parser.add_argument("--program", metavar="PROGRAM", help="the avsserve to start")
    options = parser.parse_args()
    if len(options.scripts) > 2:
        parser.error("one script or two")
    if not 1 <= options.cache <= 256 or not 0 <= options.port <= 65535:
        parser.error("--cache: 1 to 256; --port: 0 to 65535")
    try:
        options.program = avsserve.find_program(options.program)
        manual, news = Manual(text_of(MANUAL)), News()
        clips = [Clip(it, options, manual, news) for it in options.scripts]
        server = Server(options.port, clips, news)
    except (avsserve.AvsserveError, OSError) as error:
        sys.exit(f"preview.py: {error}")
    serve(server, options)


def serve(server, options):
    signal.signal(signal.SIGTERM, end)
    print(server.url, flush=True)
    try:
        for it in server.clips:
            it.watcher.start()
        # A browser in the terminal would be in the way.
        if not options.no_browser and any(os.environ.get(it) for it in SCREENS):
            threading.Thread(target=webbrowser.open, args=(server.url_once(),), daemon=True).start()
        server.serve_forever()
    except KeyboardInterrupt:
        pass
    finally:
        for it in server.clips:
            it.close()


if __name__ == "__main__":
    main()
