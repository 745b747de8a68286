#!/usr/bin/env python3
"""Writes the table in docs/proved.md of all definitions that the headline stands on: crate by crate, file by file.

    docs/reading_list.py [--check]

It begins at `Ends` and `LeavesJournal` of serve_app, the clauses of the top call, and follows each word of a definition to the definition that the
file's imports, or the file itself, give it. Definitions of std and of the prover's library aren't among them, nor types of the
code, which have their place in `src/`. With --check nothing is written: the status is 1 where the table is another.
"""

import os
import re
import sys

ROOT = os.path.dirname(os.path.dirname(os.path.abspath(__file__)))
PAGE = os.path.join(ROOT, "docs", "proved.md")
START = [("serve_app", "Headline", "Ends"), ("serve_app", "Headline", "LeavesJournal")]
FIRST = "| Crate | Files of `specs/`, and how many definitions of each |"
HEAD = re.compile(r"\s*(?:pub )?(?:(?:abbrev|unfoldable) (?:pub )?([^\s:]+) ?:|(?:record|data) ([^\s:({]+))")
OF_MUTUAL = re.compile(r"\s+pub ([^\s:]+) :")
IMPORT = re.compile(r"(?:pub )?use Rattle\.(\w+)\.specs\.(\w+)(?:\.\{(.*)\}| as (\w+))$")


def crates():
    """The names of the crates, in the order of crates.txt."""
    with open(os.path.join(ROOT, "crates.txt"), encoding="utf-8") as file:
        return re.findall(r"^(\w+)[^#\n]*:", file.read(), re.MULTILINE)


def heads(lines):
    """Where each definition of a file begins, and its name."""
    inside = None
    for at, line in enumerate(lines):
        depth = len(line) - len(line.lstrip())
        if re.match(r"\s*(?:unfoldable |abbrev )?mutual", line):
            inside = depth
        elif inside is not None and line.strip() and depth <= inside:
            inside = None
        found = HEAD.match(line) or (OF_MUTUAL.match(line) if inside is not None else None)
        if found:
            yield at, next(name for name in found.groups() if name)


class Specs:
    """The definitions of all crates: the text of each, and what each name of a file means."""

    def __init__(self):
        self.texts, self.names = {}, {}
        for crate in crates():
            folder = os.path.join(ROOT, "crates", crate, "specs")
            for file in sorted(os.listdir(folder)) if os.path.isdir(folder) else []:
                with open(os.path.join(folder, file), encoding="utf-8") as it:
                    self.read(crate, file.removesuffix(".antt"), it.read().split("\n"))

    def read(self, crate, file, lines):
        found = list(heads(lines))
        for (at, name), (end, _) in zip(found, [*found[1:], (len(lines), "")]):
            self.texts[crate, file, name] = "\n".join(lines[at:end])
        names = self.names[crate, file] = {name: (crate, file, name) for _, name in found}
        for line in lines:
            it = IMPORT.match(line)
            if not it or it[2] == "declared":
                continue
            for word in (it[3] or "").split(", "):
                name, _, other = word.partition(" as ")
                names[other or name] = (it[1], it[2], name)
            if it[4]:
                names[it[4]] = (it[1], it[2], None)

    def below(self, key):
        """The definitions that this one names."""
        names = self.names[key[:2]]
        for word, member in re.findall(r"([A-Za-z_][\w']*)(?:\.([A-Za-z_]\w*))?", self.texts[key]):
            crate, file, name = names.get(word, key)
            other = (crate, file, name or member)
            if other != key and other in self.texts:
                yield other

    def closure(self, start):
        seen, todo = set(), list(start)
        while todo:
            key = todo.pop()
            if key not in seen:
                seen.add(key)
                todo += self.below(key)
        return seen


def table():
    """The table, and the sum of its definitions."""
    counts = {}
    for crate, file, _ in Specs().closure(START):
        files = counts.setdefault(crate, {})
        files[file] = files.get(file, 0) + 1
    rows = [FIRST, "|---|---|"]
    for crate in crates():
        if crate in counts:
            rows.append(f"| `{crate}` | " + ", ".join(f"`{file}` {count}" for file, count in sorted(counts[crate].items())) + " |")
    return "\n".join(rows)


def main():
    with open(PAGE, encoding="utf-8") as file:
        page = file.read()
    start = page.index(FIRST)
    end = page.index("\n\n", start)
    made = page[:start] + table() + page[end:]
    if "--check" in sys.argv:
        return 0 if made == page else 1
    with open(PAGE, "w", encoding="utf-8") as file:
        file.write(made)
    return 0


if __name__ == "__main__":
    sys.exit(main())
