#!/usr/bin/env python3
"""Hostile bytes through the built program: every run ends by a named fault or by status 0 with the frames unchanged.

    tests/hostile.py [--runs N] [--seed S]

The program is built first, unless the environment names one as AVSSERVE. Each run renders a file at a limit of the format,
or one made by a few mutations of a sound stream, or of bytes at random. What it must do is computed here a second time,
plainly, from the format's description: the fault that is said, or the text that is written. The program has a cache of one
frame and may use 512 MiB of memory in all: room for a frame of the largest size twice, for the offsets of the most frames,
and for the journal of a copy of them.
"""
import argparse, os, random, re, resource, struct, subprocess, sys, tempfile

ROOT = os.path.dirname(os.path.dirname(os.path.abspath(__file__)))
PROGRAM = os.environ.get("AVSSERVE", os.path.join(ROOT, "bin", "avsserve"))
COLOURS = {
    b"420jpeg": (2, 2, 3), b"420mpeg2": (2, 2, 3), b"420paldv": (2, 2, 3), b"420": (2, 2, 3),
    b"422": (2, 1, 3), b"444": (1, 1, 3), b"411": (4, 1, 3), b"mono": (1, 1, 1),
}
# The bits of those whose samples have two bytes.
BITS = {}
for base, shape in ((b"420p", (2, 2, 3)), (b"422p", (2, 1, 3)), (b"444p", (1, 1, 3)), (b"mono", (1, 1, 1))):
    for bits in (10, 12, 14, 16):
        COLOURS[base + b"%d" % bits] = shape
        BITS[base + b"%d" % bits] = bits
MAX = 2**31 - 1


def number(text):
    if re.fullmatch(rb"[0-9]{1,10}", text) and int(text) <= MAX:
        return int(text)
    return None


def ratio(text):
    parts = text.split(b":")
    if len(parts) != 2:
        return None
    pair = (number(parts[0]), number(parts[1]))
    return None if None in pair else pair


def gcd(a, b):
    while b:
        a, b = b, a % b
    return a


def frame_size(name, width, height):
    """The bytes of a frame."""
    sub_w, sub_h, planes = COLOURS[name]
    return (width * height + (planes - 1) * (width // sub_w) * (height // sub_h)) * (2 if name in BITS else 1)


def head(data):
    """The text of the head as it is written, the bytes of a frame and of the head, or a fault."""
    if data[:9] != b"YUV4MPEG2" or data[9:10] not in (b" ", b"\n"):
        return "NotY4m"
    end = data.find(b"\n", 0, 4096)
    if end < 0:
        return "HeadTooLong"
    values = {}
    for parameter in data[9:end].split(b" "):
        if parameter:
            values[parameter[:1]] = parameter[1:]
    if b"W" not in values or b"H" not in values:
        return "NoSize"
    width, height = number(values[b"W"]), number(values[b"H"])
    if width is None:
        return "BadNumber W"
    if height is None:
        return "BadNumber H"
    rate = (25, 1)
    if b"F" in values:
        rate = ratio(values[b"F"])
        if rate == (0, 0):
            rate = (25, 1)
        if rate is None or 0 in rate:
            return "BadNumber F"
    divisor = gcd(*rate)
    par = (0, 0)
    if b"A" in values:
        par = ratio(values[b"A"])
        if par is None:
            return "BadNumber A"
    name = values.get(b"C", b"420jpeg")
    if name not in COLOURS:
        return "UnknownColour"
    sub_w, sub_h, _ = COLOURS[name]
    if not (1 <= width <= 65535 and 1 <= height <= 65535) or width % sub_w or height % sub_h:
        return "BadSize"
    size = frame_size(name, width, height)
    if size > 2**24:
        return "TooLarge"
    field = values.get(b"I", b"?")
    field = field.decode() if field in (b"p", b"t", b"b") else "?"
    text = "YUV4MPEG2 W%d H%d F%d:%d I%s A%d:%d C%s\n" % (
        width, height, rate[0] // divisor, rate[1] // divisor, field, par[0], par[1], name.decode())
    return text.encode(), size, end + 1, BITS.get(name, 8)


def in_range(samples, bits):
    """The samples of a frame as they are written: one of two bytes that is over the largest is the largest."""
    if bits in (8, 16):
        return samples
    numbers = (min(number, (1 << bits) - 1) for (number,) in struct.iter_unpack("<H", samples))
    return b"".join(struct.pack("<H", number) for number in numbers)


def expected(data):
    """The fault's words, or the text of the whole stream."""
    found = head(data)
    if isinstance(found, str):
        return found
    text, size, place, bits = found
    parts = [text]
    k = 0
    while place < len(data):
        if k == 1_000_000:
            return "TooManyFrames"
        rest = data[place:place + 4096]
        sixth = rest[5:6]
        if rest[:5] != b"FRAME"[:len(rest)] or (sixth and sixth not in (b" ", b"\n")):
            return "BadFrame %d" % k
        end = rest.find(b"\n")
        if end < 0:
            return ("BadFrame %d" if len(rest) == 4096 else "Truncated %d") % k
        start = place + end + 1
        if len(data) - start < size:
            return "Truncated %d" % k
        parts += [b"FRAME\n", in_range(data[start:start + size], bits)]
        place = start + size
        k += 1
    return b"".join(parts) if k else "NoFrames"


def sound(rng):
    name = rng.choice(list(COLOURS))
    sub_w, sub_h, _ = COLOURS[name]
    width, height = sub_w * rng.randint(1, 9), sub_h * rng.randint(1, 9)
    size = frame_size(name, width, height)
    parameters = [b"W%d" % width, b"H%d" % height]
    if rng.random() < 0.9:
        parameters.append(b"C" + name)
    elif name != b"420jpeg":
        parameters.append(b"C" + name)
    for extra in (b"F%d:%d" % (rng.randint(0, 60), rng.randint(0, 9)), b"I" + rng.choice([b"p", b"t", b"b", b"m", b"?", b"x"]),
                  b"A%d:%d" % (rng.randint(0, 40), rng.randint(0, 40)), b"X" + b"y" * rng.randint(0, 40), b"", b"W2", b"Q"):
        if rng.random() < 0.4:
            parameters.insert(rng.randint(0, len(parameters)), extra)
    data = b"YUV4MPEG2 " + b" ".join(parameters) + b"\n"
    for _ in range(rng.randint(1, 4)):
        data += rng.choice([b"FRAME\n", b"FRAME\n", b"FRAME Ip\n", b"FRAME X" + b"z" * rng.randint(0, 30) + b"\n"])
        data += bytes(rng.randrange(256) for _ in range(size))
    return data


def mutated(rng):
    data = bytearray(sound(rng))
    for _ in range(rng.choice([0, 1, 1, 1, 2, 3, 8])):
        kind = rng.randrange(8)
        place = rng.randrange(len(data) + 1) if rng.random() < 0.5 else rng.randrange(min(len(data), 70) + 1)
        if kind == 0 and place < len(data):
            data[place] ^= 1 << rng.randrange(8)
        elif kind == 1:
            data[place:place + rng.randint(1, 6)] = b""
        elif kind == 2:
            data[place:place] = bytes(rng.randrange(256) for _ in range(rng.randint(1, 6)))
        elif kind == 3:
            del data[place:]
        elif kind == 4:
            data[place:place] = rng.choice([b" ", b"\n", b"FRAME", b":", b"W", b"4294967297", b"99999999999", b"0", b"C420", b"p10", b" F0:0", b" F1:0", b" H65536"])
        elif kind == 5:
            data[place:place] = rng.choice([b" X", b"FRAME X"]) + b"z" * rng.choice([100, 4000, 4080, 4090, 5000])
        elif kind == 6 and place < len(data):
            data[place] = rng.choice(b"\x00\xff \n0")
        elif kind == 7:
            data += data[place:place + 40]
        if not data:
            data = bytearray(b"Y")
    return bytes(data)


def edges():
    """Files at the limits of the format."""
    million = b"YUV4MPEG2 W1 H1 Cmono\n" + b"FRAME\n\x7f" * 1_000_000
    yield million
    yield million + b"F"
    yield million + b"FRAME\n\x7f"
    yield b"YUV4MPEG2 W65535 H256 Cmono\nFRAME\n" + b"\x01" * (65535 * 256)
    yield b"YUV4MPEG2 W65535 H257 Cmono\nFRAME\n"
    yield (b"YUV4MPEG2 W4096 H4096 Cmono\n" + b"FRAME\n" + b"\x02" * 2**24 + b"FRAME\n" + b"\x03" * 2**24)
    for size in (4095, 4096):
        yield b"YUV4MPEG2 W1 H1 Cmono X".ljust(size, b"z") + b"\nFRAME\n\x01"
        yield b"YUV4MPEG2 W1 H1 Cmono\n" + b"FRAME X".ljust(size, b"z") + b"\n\x01"


def limit():
    resource.setrlimit(resource.RLIMIT_AS, (512 << 20, 512 << 20))


def main():
    options = argparse.ArgumentParser(description=__doc__, formatter_class=argparse.RawDescriptionHelpFormatter)
    options.add_argument("--runs", type=int, default=4000)
    options.add_argument("--seed", type=int, default=1)
    options = options.parse_args()
    if "AVSSERVE" not in os.environ:
        subprocess.run([os.path.join(ROOT, "build")], check=True)
    rng = random.Random(options.seed)
    kinds = {}
    with tempfile.TemporaryDirectory() as room:
        with open(os.path.join(room, "s.avs"), "w") as script:
            script.write('Y4MSource("a.y4m")\n')
        path = os.path.join(room, "a.y4m")
        fixed = list(edges())
        for run in range(options.runs):
            if run < len(fixed):
                data = fixed[run]
            elif rng.random() < 0.97:
                data = mutated(rng)
            else:
                data = bytes(rng.randrange(256) for _ in range(rng.randrange(200)))
            with open(path, "wb") as out:
                out.write(data)
            want = expected(data)
            done = subprocess.run([PROGRAM, "render", "--cache", "1", "s.avs"], cwd=room, capture_output=True, preexec_fn=limit, timeout=120)
            if isinstance(want, str):
                good = (done.returncode, done.stdout, done.stderr) == (3, b"", b"input fault: a.y4m: " + want.encode() + b"\n")
                kind = want.split()[0]
            else:
                good = (done.returncode, done.stdout, done.stderr) == (0, want, b"")
                kind = "status 0"
            kinds[kind] = kinds.get(kind, 0) + 1
            if not good:
                kept = os.path.join(ROOT, "hostile.y4m")
                with open(kept, "wb") as out:
                    out.write(data)
                print("hostile: run %d of seed %d, kept as %s: status %d, %r; wanted %r"
                      % (run, options.seed, kept, done.returncode, done.stderr[:200], want[:200]))
                return 1
    print("hostile: %d runs as they should be: %s" % (options.runs, ", ".join("%s %d" % row for row in sorted(kinds.items()))))
    return 0


if __name__ == "__main__":
    sys.exit(main())
