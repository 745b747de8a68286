#!/usr/bin/env python3
"""Compares what is beside the program with the program and the manual: the page for man, the completion, the syntax for Vim, and
what tools/install.sh copies.

The program is built first, unless the environment names one as AVSSERVE. man, bash and vim are used where they are installed.
"""

import os
import re
import shutil
import subprocess
import sys
import tempfile

ROOT = os.path.dirname(os.path.dirname(os.path.abspath(__file__)))
PROGRAM = os.path.abspath(os.environ.get("AVSSERVE", os.path.join(ROOT, "bin", "avsserve")))
wrong = []


def read(path):
    with open(os.path.join(ROOT, path), encoding="utf-8") as file:
        return file.read()


def same(what, found, wanted):
    if found != wanted:
        wrong.append(f"{what}: {found}\n  wanted: {wanted}")


def run(*words, folder=ROOT, **more):
    return subprocess.run(words, cwd=folder, stdin=subprocess.DEVNULL, stdout=subprocess.PIPE, stderr=subprocess.PIPE, text=True,
                          check=False, **more)


def usage():
    """What the program says of its arguments, a line for each command."""
    return re.split(r" \| (?=\w)", run(PROGRAM).stderr.strip().removeprefix("usage: avsserve "))


def sections(page):
    """The sections of a page for man, in plain text."""
    made = {}
    for line in page.split("\n"):
        if line.startswith(".SH "):
            made[line[4:]] = lines = []
        elif made:
            lines.append(line.replace("\\-", "-"))
    return made


def terms(lines):
    """The terms of a section, each with the lines of its text."""
    made = {}
    for at, line in enumerate(lines):
        if at and lines[at - 1] == ".TP":
            made[line.removeprefix(".B ")] = text = []
        elif made and line not in (".TP", ".br"):
            text.append(re.sub(r"^\.BR? ", "", line))
    return made


def rows(path, heading, count):
    """The rows of a table of the manual, below a heading: their first cells."""
    part = read(path).split(f"\n{heading}\n")[1].split("\n## ")[0]
    found = [line.strip("| ").split(" | ") for line in part.split("\n") if line.startswith("| ")]
    return {row[0].strip("`"): row[1:count] for row in found[1:]}


def status_of(*words):
    return run(PROGRAM, *words).returncode


def check_page():
    parts = sections(read("docs/avsserve.1"))
    synopsis = re.sub(r"\.B avsserve (\w+)\n", r"\1 ", "\n".join(parts["SYNOPSIS"])).split("\n.br\n")
    same("avsserve.1: synopsis", synopsis, usage())
    options = terms(parts["OPTIONS"])
    same("avsserve.1: options", [it for it in options if it != "--"], " | ".join(re.findall(r"\[(.*?)\]", usage()[0])).split(" | "))
    for option in ("--cache", "--threads"):
        text = " ".join(next(options[it] for it in options if it.startswith(option)))
        least, most = map(int, re.search(r"(\d+) to (\d+)", text).groups())
        for number, wanted in ((least - 1, 1), (least, 2), (most, 2), (most + 1, 1)):
            same(f"{option} {number}: status", status_of("render", "none.avs", option, str(number)), wanted)
    told = {status: text[0] for status, text in terms(parts["EXIT STATUS"]).items() if status != "0"}
    table = rows("docs/manual/command-line.md", "## Exit status", 2)
    same("avsserve.1: statuses", told, {status: row[0].strip("`") for status, row in table.items()})
    limits = rows("docs/manual/limits.md", "## Numbers", 2)
    for what, text in terms(parts["LIMITS"]).items():
        said = limits.get(what, ["no row"])[0].split(" (")[0]
        same(f"avsserve.1: {what}", text[0], said.removesuffix(" with the newline"))
    if shutil.which("man"):
        shown = run("man", "--warnings", "-l", os.path.join(ROOT, "docs", "avsserve.1"), env=dict(os.environ, LC_ALL="C.UTF-8"))
        same("man: warnings", shown.stderr, "")
        same("man: status", shown.returncode, 0)
    else:
        print("tools: man skipped, not installed")


def completed(folder, *words):
    """What bash offers for the last of these words."""
    script = 'source "$1"; shift; COMP_WORDS=("$@"); COMP_CWORD=$(($# - 1)); _avsserve; printf "%s\\n" "${COMPREPLY[@]}"'
    found = run("bash", "-c", script, "bash", os.path.join(ROOT, "tools", "completion.bash"), "avsserve", *words, folder=folder)
    same(f"completion of {words}: errors", found.stderr, "")
    return sorted(found.stdout.split())


def check_completion():
    with tempfile.TemporaryDirectory() as folder:
        for name in ("one.avs", "other.y4m"):
            open(os.path.join(folder, name), "w", encoding="utf-8").close()
        os.mkdir(os.path.join(folder, "sub"))
        same("completion: commands", completed(folder, ""), sorted(it.split()[0] for it in usage()))
        same("completion: options", completed(folder, "render", "-"), sorted(re.findall(r"--\w+", usage()[0])))
        same("completion: scripts", completed(folder, "info", ""), ["one.avs", "sub"])
        same("completion: scripts", completed(folder, "render", "--plain", "o"), ["one.avs"])
        same("completion: a number", completed(folder, "render", "--cache", ""), [])
        same("completion: a number", completed(folder, "selftest", ""), [])


def check_syntax():
    text = read("tools/avs.vim")
    filters, functions = read("docs/manual/functions.md").split("\n## Functions\n")
    words = re.search(r"The words (.*?) can't be names", read("docs/manual/language.md"), re.DOTALL)[1]
    for group, wanted in (("Filter", re.findall(r"^\| \[`(\w+)`\]", filters, re.MULTILINE)),
                          ("Function", re.findall(r"^\| \[`(\w+)`\]", functions, re.MULTILINE)),
                          ("Keyword", re.findall(r"`(\w+)`", words) + ["last"])):
        found = " ".join(re.findall(rf"^syn keyword avs{group} (.*)$", text, re.MULTILINE)).split()
        same(f"avs.vim: {group}", sorted(found), sorted(wanted))
    if shutil.which("vim"):
        with tempfile.TemporaryDirectory() as folder:
            said = os.path.join(folder, "said.txt")
            run("vim", "-Nes", "-u", "NONE", "-c", f"redir! > {said}", "-c", f"source {ROOT}/tools/avs.vim", "-c", "redir END",
                "-c", "qa!", timeout=60)
            with open(said, encoding="utf-8") as file:
                same("vim: errors", file.read().strip(), "")
    else:
        print("tools: vim skipped, not installed")


def check_install():
    with tempfile.TemporaryDirectory() as folder:
        prefix = os.path.join(folder, "a prefix")
        done = run(os.path.join(ROOT, "tools", "install.sh"), prefix, env=dict(os.environ, AVSSERVE=PROGRAM))
        same("install.sh: status and errors", (done.returncode, done.stderr), (0, ""))
        told = sorted(done.stdout.splitlines())
        same("install.sh: files", sorted(os.path.join(at, it) for at, _, names in os.walk(prefix) for it in names), told)
        kept = sorted(os.listdir(os.path.join(ROOT, "examples")))
        same("install.sh: examples", sorted(os.listdir(os.path.join(prefix, "share", "avsserve", "examples"))), kept)
        # From another folder, with nothing but the program.
        alone = os.path.join(prefix, "bin", "avsserve")
        same("the installed program", run(alone, "info", os.path.join(ROOT, "examples", "copy.avs"), folder=ROOT).returncode, 0)
        if shutil.which("readelf"):
            needed = re.findall(r"\(NEEDED\).*\[(.*)\]", run("readelf", "-d", alone).stdout)
            same("libraries of the program", needed, ["libc.so.6"])
        else:
            print("tools: readelf skipped, not installed")
        same("install.sh without a folder", run(os.path.join(ROOT, "tools", "install.sh")).returncode, 1)


def check_reading_list():
    done = run(os.path.join(ROOT, "docs", "reading_list.py"), "--check")
    same("the table of definitions in docs/proved.md: is it that of docs/reading_list.py", (done.returncode, done.stderr), (0, ""))


def check_named_files():
    """Each file of definitions that a text of the repository names is there, in the crate that it names or in its own."""
    crates = os.path.join(ROOT, "crates")
    there = {crate: set(os.listdir(at)) for crate in os.listdir(crates) if os.path.isdir(at := os.path.join(crates, crate, "specs"))}
    anywhere = set().union(*there.values())
    texts = [os.path.join(ROOT, "README.md")]
    for top in ["docs", *(f"crates/{crate}" for crate in there)]:
        for at, folders, names in os.walk(os.path.join(ROOT, top)):
            folders[:] = [it for it in folders if it not in ("out", "proofs")]
            texts += [os.path.join(at, it) for it in names if it.endswith((".md", ".rt", ".antt"))]
    for path in texts:
        with open(path, encoding="utf-8") as file:
            text = file.read()
        own = re.match(r"crates/(\w+)/", os.path.relpath(path, ROOT))
        for crate, name in re.findall(r"(?:(\w+)/)?specs/(\w+\.antt)", text):
            known = there.get(crate or (own[1] if own else ""), anywhere)
            same(f"{os.path.relpath(path, ROOT)}: {name} of specs is there", name in known, True)


def main():
    if "AVSSERVE" not in os.environ:
        subprocess.run([os.path.join(ROOT, "build")], check=True, stdout=subprocess.DEVNULL)
    check_page()
    check_completion()
    check_syntax()
    check_install()
    check_reading_list()
    check_named_files()
    for it in wrong:
        print(f"tools: {it}")
    if not wrong:
        print("tools: the page, the completion, the syntax, what is installed and the reading list agree with the program and the manual")
    return 1 if wrong else 0


if __name__ == "__main__":
    sys.exit(main())
