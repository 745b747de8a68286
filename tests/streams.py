#!/usr/bin/env python3
"""Heads and frames of streams, and the first fault of each, by tables, through the built program.

The program is built first, unless the environment names one as AVSSERVE.
"""

import os
import re
import struct
import subprocess
import sys
import tempfile

ROOT = os.path.dirname(os.path.dirname(os.path.abspath(__file__)))
PROGRAM = os.environ.get("AVSSERVE", os.path.join(ROOT, "bin", "avsserve"))

# The parameters of a head, and those that are written for it. The size of a frame is made to fit.
HEADS = [
    (" W2 H2", "W2 H2 F25:1 I? A0:0 C420jpeg"),
    (" H4 W2", "W2 H4 F25:1 I? A0:0 C420jpeg"),
    (" W2 H2 F25:1 Ip A1:1 C420jpeg XYSCSS=420JPEG", "W2 H2 F25:1 Ip A1:1 C420jpeg"),
    (" C420jpeg W9 A1:1 W2 H2 Xc F50:2 Im", "W2 H2 F25:1 I? A1:1 C420jpeg"),
    ("  W2   H2  ", "W2 H2 F25:1 I? A0:0 C420jpeg"),
    (" W0000000002 H2", "W2 H2 F25:1 I? A0:0 C420jpeg"),
    (" W2 H2 F0:0", "W2 H2 F25:1 I? A0:0 C420jpeg"),
    (" W2 H2 F00:0", "W2 H2 F25:1 I? A0:0 C420jpeg"),
    (" W2 H2 F30000:1001", "W2 H2 F30000:1001 I? A0:0 C420jpeg"),
    (" W2 H2 F60000:2002", "W2 H2 F30000:1001 I? A0:0 C420jpeg"),
    (" W2 H2 F2147483647:2147483647", "W2 H2 F1:1 I? A0:0 C420jpeg"),
    (" W2 H2 Ip", "W2 H2 F25:1 Ip A0:0 C420jpeg"),
    (" W2 H2 It", "W2 H2 F25:1 It A0:0 C420jpeg"),
    (" W2 H2 Ib", "W2 H2 F25:1 Ib A0:0 C420jpeg"),
    (" W2 H2 Ipp", "W2 H2 F25:1 I? A0:0 C420jpeg"),
    (" W2 H2 A0:7", "W2 H2 F25:1 I? A0:7 C420jpeg"),
    (" W2 H2 A4:6", "W2 H2 F25:1 I? A4:6 C420jpeg"),
    (" W2 H2 C420mpeg2", "W2 H2 F25:1 I? A0:0 C420mpeg2"),
    (" W2 H2 C420paldv", "W2 H2 F25:1 I? A0:0 C420paldv"),
    (" W2 H2 C420", "W2 H2 F25:1 I? A0:0 C420"),
    (" W2 H3 C422", "W2 H3 F25:1 I? A0:0 C422"),
    (" W3 H3 C444", "W3 H3 F25:1 I? A0:0 C444"),
    (" W4 H3 C411", "W4 H3 F25:1 I? A0:0 C411"),
    (" W3 H1 Cmono Q! w5", "W3 H1 F25:1 I? A0:0 Cmono"),
    (" W65535 H256 Cmono", "W65535 H256 F25:1 I? A0:0 Cmono"),
]
# A sample of more than 8 bits has two bytes, and its format one name.
HEADS += [
    (f" W4 H2 C{name}{bits}", f"W4 H2 F25:1 I? A0:0 C{name}{bits}")
    for bits in (10, 12, 14, 16)
    for name in ("420p", "422p", "444p", "mono")
]
# Luma and one plane of chroma: columns and rows of luma for a sample of chroma, or none.
CHROMA = {"420": (2, 2), "422": (2, 1), "444": (1, 1), "411": (4, 1), "mono": None}

# What comes after the magic word, up to the newline, and the fault.
FAULTS = [
    ("W2 H2", "NotY4m"),
    ("\tW2 H2", "NotY4m"),
    ("", "NoSize"),
    (" W2", "NoSize"),
    (" H2 F1:0", "NoSize"),
    (" W H2", "BadNumber W"),
    (" W+2 H2", "BadNumber W"),
    (" W2 H-2", "BadNumber H"),
    (" W99999999999 H2", "BadNumber W"),
    (" W2 H2147483648", "BadNumber H"),
    (" Wx Hx F1", "BadNumber W"),
    (" W2 H2 F25", "BadNumber F"),
    (" W2 H2 F1:0", "BadNumber F"),
    (" W2 H2 F0:1 A", "BadNumber F"),
    (" W2 H2 F1:2:3", "BadNumber F"),
    (" W2 H2 A1:", "BadNumber A"),
    (" W2 H2 A1 C", "BadNumber A"),
    (" W2 H2 C", "UnknownColour"),
    (" W2 H2 C410", "UnknownColour"),
    (" W0 H2 C420JPEG", "UnknownColour"),
    (" W2 H2 C420p8", "UnknownColour"),
    (" W2 H2 C420p9", "UnknownColour"),
    (" W2 H2 C420P10", "UnknownColour"),
    (" W4 H2 C411p10", "UnknownColour"),
    (" W2 H2 C444p010", "UnknownColour"),
    (" W3 H2 C420p10", "BadSize"),
    (" W65535 H129 Cmono16", "TooLarge"),
    (" W0 H2", "BadSize"),
    (" W65536 H2", "BadSize"),
    (" W3 H2 C420jpeg", "BadSize"),
    (" W2 H3 C420jpeg", "BadSize"),
    (" W2 H2 C411", "BadSize"),
    (" W65535 H65535 Cmono", "TooLarge"),
    (" W65535 H257 Cmono", "TooLarge"),
]

# What follows a head of 2x2 in 4:2:0, and how many frames it is or its fault.
BODIES = [
    (b"FRAME\nabcdef", 1),
    (b"FRAME Ip XFRAME\nabcdefFRAME \nghijkl", 2),
    (b"", "NoFrames"),
    (b"FRAME\nabcde", "Truncated 0"),
    (b"FRAME\nabcdefg", "BadFrame 1"),
    (b"FRAME\nabcdefF", "Truncated 1"),
    (b"FRAME\nabcdefFRAME Ip", "Truncated 1"),
    (b"FRAMEX\nabcdef", "BadFrame 0"),
    (b"FRA\n", "BadFrame 0"),
    (b"frame\nabcdef", "BadFrame 0"),
    (b"\n", "BadFrame 0"),
    (b"FRAME X" + b"z" * 4088 + b"\nabcdef", 1),
    (b"FRAME X" + b"z" * 4089 + b"\nabcdef", "BadFrame 0"),
]
SMALL = b"YUV4MPEG2 W2 H2 F25:1 I? A0:0 C420jpeg\n"


def bits_of(written):
    """The bits of a sample of a written head."""
    return int(re.search(r"(?:p|mono)(\d+)$|$", written)[1] or 8)


def frame_samples(written):
    """The samples of a frame of a written head."""
    words = written.split()
    width, height = int(words[0][1:]), int(words[1][1:])
    colour = words[5][1:]
    chroma = CHROMA["mono" if colour.startswith("mono") else colour[:3]]
    return width * height + (2 * (width // chroma[0]) * (height // chroma[1]) if chroma else 0)


def frame_given(written):
    """The bytes of a frame for a written head. Samples of two bytes are from 0 to the largest of 16 bits."""
    count = frame_samples(written)
    if bits_of(written) == 8:
        return bytes(n % 251 for n in range(count))
    return struct.pack(f"<{count}H", *(n * 65535 // (count - 1) for n in range(count)))


def frame_written(written):
    """The bytes that are written for them: a sample over the largest one is the largest."""
    given, bits = frame_given(written), bits_of(written)
    if bits == 8:
        return given
    return b"".join(struct.pack("<H", min(sample, (1 << bits) - 1)) for (sample,) in struct.iter_unpack("<H", given))


def prefixes():
    """Each prefix of a stream of four frames of one sample, and how many frames it is or its fault."""
    stream = b"YUV4MPEG2 W1 H1 F25:1 Ip A1:1 Cmono\nFRAME\n\x00FRAME\n\x01FRAME\n\x02FRAME\n\x03"
    for n in range(len(stream) + 1):
        if n < 10:
            want = "NotY4m"
        elif n < 36:
            want = "HeadTooLong"
        elif n == 36:
            want = "NoFrames"
        else:
            want = (n - 36) // 7 if (n - 36) % 7 == 0 else f"Truncated {(n - 36) // 7}"
        yield f"the first {n} bytes", stream[:n], stream[:n] if isinstance(want, int) else want


def rows():
    """A name, the bytes of a file, and the stream that is written or the fault."""
    for given, written in HEADS:
        data = b"YUV4MPEG2" + given.encode() + b"\nFRAME\n" + frame_given(written)
        yield given, data, b"YUV4MPEG2 " + written.encode() + b"\nFRAME\n" + frame_written(written)
    for given, fault in FAULTS:
        yield given, b"YUV4MPEG2" + given.encode() + b"\n", fault
    for body, want in BODIES:
        if isinstance(want, int):
            frames = [body[body.index(b"\n") + 1 :][:6], body[-6:]]
            want = SMALL + b"".join(b"FRAME\n" + frame for frame in frames[:want])
        yield repr(body[:40]), SMALL + body, want
    for size, want in ((4095, None), (4096, "HeadTooLong")):
        padded = (SMALL[:-1] + b" X").ljust(size, b"z") + b"\nFRAME\nabcdef"
        yield f"a head of {size} bytes", padded, want or SMALL + b"FRAME\nabcdef"
    yield from prefixes()


def main():
    if "AVSSERVE" not in os.environ:
        subprocess.run([os.path.join(ROOT, "build")], check=True)
    runs = wrong = 0
    with tempfile.TemporaryDirectory() as folder:
        with open(os.path.join(folder, "s.avs"), "w", encoding="utf-8") as file:
            file.write('Y4MSource("a.y4m")\n')
        for name, data, want in rows():
            with open(os.path.join(folder, "a.y4m"), "wb") as file:
                file.write(data)
            done = subprocess.run(
                [PROGRAM, "render", "s.avs"], cwd=folder, capture_output=True, timeout=120, check=False
            )
            if isinstance(want, str):
                expected = (3, b"", f"input fault: a.y4m: {want}\n".encode())
            else:
                expected = (0, want, b"")
            runs += 1
            if (done.returncode, done.stdout, done.stderr) != expected:
                wrong += 1
                print(f"{name}: status {done.returncode}, {done.stderr!r}, {done.stdout[:80]!r}; wanted {expected[0]}, {expected[2]!r}")
    print(f"streams: {runs} files, {wrong} wrong")
    return 1 if wrong else 0


if __name__ == "__main__":
    sys.exit(main())
