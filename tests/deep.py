#!/usr/bin/env python3
"""Scripts at the limits of depth, through the built program with a stack of 8 MiB.

The program is built first, unless the environment names one as AVSSERVE.
"""

import os
import resource
import subprocess
import sys
import tempfile

ROOT = os.path.dirname(os.path.dirname(os.path.abspath(__file__)))
PROGRAM = os.environ.get("AVSSERVE", os.path.join(ROOT, "bin", "avsserve"))
STACK = 8 << 20
CLIP = 'BlankClip(length=1, width=1, height=1, pixel_type="Y8")\n'


def nested(around, inner, count):
    """An expression inside so many parentheses, signs or calls."""
    left, right = around
    return left * count + inner + right * count


def calls(deep, around, count):
    """A function that calls itself, each call inside an expression that nests."""
    inner = nested(around, "f(n - 1)", count)
    return f"function f(int n) {{ return n < 1 ? 0 : {inner} }}\nx = f({deep - 1})\n{CLIP}"


def texts(deep):
    return f'n = 0\nt = "n = n + 1" + Chr(10) + "x = n < {deep} ? Eval(t) : 0"\nEval(t)\n{CLIP}'


def both(deep, count):
    """A function that evaluates a text that calls the function: each turn nests two calls."""
    inner = nested(("(", ")"), "f(n - 1)", count)
    return f'function f(int n) {{ return n < 1 ? 0 : Eval("n < 1 ? 0 : {inner}") }}\nx = f({deep // 2})\n{CLIP}'


SCRIPTS = [
    ("64 calls, parentheses", calls(64, ("(", ")"), 29), 0, ""),
    ("64 calls, signs", calls(64, ("-", ""), 29), 0, ""),
    ("64 calls, calls of built-in functions", calls(64, ("Abs(", ")"), 29), 0, ""),
    ("64 calls, branches", calls(64, ("true ? ", " : 0"), 29), 0, ""),
    ("65 calls", calls(65, ("(", ")"), 29), 2, "script fault: s.avs line 1: CallDepth"),
    ("too deep an expression", calls(64, ("(", ")"), 30), 2, "script fault: s.avs line 1: NestLimit"),
    ("64 texts", texts(64), 0, ""),
    ("65 texts", texts(65), 2, "script fault: Eval line 2: CallDepth"),
    ("32 functions and 32 texts", both(62, 30), 0, ""),
]


def limited():
    resource.setrlimit(resource.RLIMIT_STACK, (STACK, STACK))


def main():
    if "AVSSERVE" not in os.environ:
        subprocess.run([os.path.join(ROOT, "build")], check=True)
    wrong = 0
    with tempfile.TemporaryDirectory() as folder:
        for name, script, status, line in SCRIPTS:
            with open(os.path.join(folder, "s.avs"), "w", encoding="utf-8") as file:
                file.write(script)
            done = subprocess.run(
                [PROGRAM, "render", "s.avs"], cwd=folder, capture_output=True, preexec_fn=limited, timeout=120, check=False
            )
            said = done.stderr.decode(errors="replace").strip()[:200]
            if (done.returncode, said) != (status, line):
                wrong += 1
                print(f"{name}: status {done.returncode}, {said!r}; wanted {status}, {line!r}")
    print(f"deep: {len(SCRIPTS)} scripts, {wrong} wrong")
    return 1 if wrong else 0


if __name__ == "__main__":
    sys.exit(main())
