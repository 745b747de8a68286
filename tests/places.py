#!/usr/bin/env python3
"""The place of syntax faults, by a second reading of the grammar: random scripts with an error at a random token.

    tests/places.py [--runs N] [--seed S]

The program is built first, unless the environment names one as AVSSERVE. Each script is a list of tokens, each on a line of
its own where the language has it (a line that ends in a backslash goes on), so that the line of a fault tells its token. The
grammar stands here as plain rules, and is read by Earley's method, which knows after each token whether any script goes on. A
script that the rules read has no fault of its syntax; in another the fault is Syntax, at the first token with which none goes on. Then come
scripts that nest 32 and 33 deep, in each way in which something nests.
"""
import argparse, os, random, re, subprocess, sys, tempfile

ROOT = os.path.dirname(os.path.dirname(os.path.abspath(__file__)))
PROGRAM = os.environ.get("AVSSERVE", os.path.join(ROOT, "bin", "avsserve"))

# The words of each kind of token. A name of a type is a name elsewhere.
WORDS = {
    "name": ["a", "Trim", "last", "float"], "type": ["int", "clip", "val"], "int": ["0", "17", "$FF"], "bool": ["true", "no"],
    "str": ['"a b"', '"1"'], "strname": ['"x"', '"name"'], "cmp": ["==", "<", ">="], "sum": ["+", "++"], "prod": ["*", "/", "%"],
}
OTHERS = "function global return if else while for ( ) { } , . = ? : ! - && ||".split()
KINDS = [*WORDS, *OTHERS, "nl"]

# Each rule has its ways, which are lists of rules and kinds of tokens.
RULES = {
    "script": ["nls items end"],
    "nls": ["", "nl nls"],
    "items": ["", "function-def nls items", "block nls items", "line", "line nl nls items"],
    "inner": ["", "block nls inner", "line", "line nl nls inner"],
    "line": ["expr", "n = expr", "global n = expr", "return expr"],
    "block": ["if-block", "while ( expr ) body", "for ( n = expr , expr ) body", "for ( n = expr , expr , expr ) body"],
    "if-block": ["if ( expr ) body", "if ( expr ) body nls else body", "if ( expr ) body nls else if-block"],
    "body": ["nls { nls inner }"],
    "function-def": ["function n ( ) body", "function n ( params ) body"],
    "params": ["must", "must , params", "may", "may , mays"],
    "mays": ["may", "may , mays"],
    "must": ["type n"],
    "may": ["type strname"],
    "n": ["name", "type"],
    "expr": ["or", "or ? expr : expr"],
    "or": ["and", "or || and"],
    "and": ["comparison", "and && comparison"],
    "comparison": ["addition", "addition cmp addition"],
    "addition": ["product", "addition sum product", "addition - product"],
    "product": ["unary", "product prod unary"],
    "unary": ["dots", "- unary", "! unary"],
    "dots": ["primary", "calls"],
    "calls": ["primary . n", "primary . n args", "calls . n", "calls . n args"],
    "primary": ["int", "str", "strname", "bool", "n", "n args", "( expr )"],
    "args": ["( )", "( list )"],
    "list": ["arg", "arg , list"],
    "arg": ["expr", "n = expr"],
}
RULES = {rule: [way.split() for way in ways] for rule, ways in RULES.items()}
EMPTY = {"nls", "items", "inner"}


def closed(found, sets):
    """All that may come next, with what has come so far: for each item its rule, its way, how far it is, and where it began."""
    at, todo, have = len(sets), list(found), set(found)
    while todo:
        rule, way, dot, start = todo.pop()
        parts = RULES[rule][way]
        more = []
        if dot == len(parts):
            before = have if start == at else sets[start]
            more = [(r, w, d + 1, s) for r, w, d, s in list(before) if d < len(RULES[r][w]) and RULES[r][w][d] == rule]
        elif parts[dot] in RULES:
            more = [(parts[dot], w, 0, at) for w in range(len(RULES[parts[dot]]))]
            if parts[dot] in EMPTY:
                more.append((rule, way, dot + 1, start))
        for item in more:
            if item not in have:
                have.add(item)
                todo.append(item)
    return have


def place(kinds):
    """The first token with which no script goes on, or None where the tokens are a script."""
    sets = [closed([("script", 0, 0, 0)], [])]
    for i, kind in enumerate(kinds):
        found = [(r, w, d + 1, s) for r, w, d, s in sets[-1] if d < len(RULES[r][w]) and RULES[r][w][d] == kind]
        if not found:
            return i
        sets.append(closed(found, sets))
    return None


def made(rng, rule, depth):
    """A random derivation of a rule."""
    if rule not in RULES:
        return [rule]
    ways = RULES[rule]
    if depth < 0:
        shortest = {"items": [], "inner": [], "nls": [], "expr": ["or"], "or": ["and"], "and": ["comparison"], "comparison": ["addition"],
                    "addition": ["product"], "product": ["unary"], "unary": ["dots"], "dots": ["primary"], "calls": ["primary", ".", "n"],
                    "primary": ["int"], "list": ["arg"], "arg": ["expr"], "params": ["must"], "mays": ["may"], "args": ["(", ")"],
                    "if-block": ["if", "(", "expr", ")", "body"]}
        ways = [shortest[rule]] if rule in shortest else ways
    elif rule == "nls" and rng.random() < 0.7:
        ways = [[]]
    elif rule == "items":
        ways = ways[1:]
    return [kind for part in rng.choice(ways) for kind in made(rng, part, depth - 1)]


def broken(rng, kinds):
    """The kinds with one of them changed, put in, taken out, or moved, or without those from one on."""
    kinds, at = list(kinds), rng.randrange(len(kinds))
    how = rng.randrange(5)
    if how == 0:
        kinds[at] = rng.choice(KINDS)
    elif how == 1:
        kinds.insert(at, rng.choice(KINDS))
    elif how == 2:
        del kinds[at]
    elif how == 3:
        other = rng.randrange(len(kinds))
        kinds[at], kinds[other] = kinds[other], kinds[at]
    else:
        del kinds[at:]
    return kinds


def seen(kinds):
    """The tokens that the language sees: no newline inside parentheses."""
    opened, left = 0, []
    for kind in kinds:
        opened = opened + 1 if kind == "(" else max(opened - 1, 0) if kind == ")" else opened
        if kind != "nl" or not opened:
            left.append(kind)
    return left


def text_of(rng, kinds):
    """A text of the tokens, and the line of each and of the end."""
    text, line, lines = "", 1, []
    for i, kind in enumerate(kinds):
        if i and kind != "nl" and kinds[i - 1] != "nl":
            text, line = text + " \\\n", line + 1
        lines.append(line)
        if kind == "nl":
            text, line = text + "\n", line + 1
        else:
            text += rng.choice(WORDS.get(kind, [kind]))
    return text, [*lines, line]


def answer(folder, text):
    """The line and the kind of the fault of a script, or None where its syntax has none."""
    path = os.path.join(folder, "s.avs")
    with open(path, "w") as file:
        file.write(text)
    ran = subprocess.run([PROGRAM, "info", path], stdout=subprocess.PIPE, stderr=subprocess.PIPE, timeout=60)
    told = re.fullmatch(rb"script fault: .* line (\d+): (Syntax|NestLimit)\n", ran.stderr)
    return (int(told[1]), told[2].decode()) if told else None


def deep(count):
    """Texts that nest so deep, each token of them that nests on a line of its own, and the line of the last one that opens."""
    c = count
    yield "x = " + "(\n" * (c - 1) + "(" + "1" + ")" * c, c
    yield "x = " + "(" + "\n-" * (c - 1) + "1)", c
    yield "x = " + "(" + "\n!" * (c - 1) + "true)", c
    yield "x = " + "Abs(\n" * (c - 1) + "Abs(" + "1" + ")" * c, c
    yield "x = (" + "true ?\n" * (c - 2) + "true ? 1" + " : 2" * (c - 1) + ")", c - 1
    yield "x = (" + "true ? 1\n:" * (c - 1) + " 2)", c - 1
    yield "if (true) {\n" * (c - 1) + "if (true) {" + "}" * c, c
    yield "while (false) {\n" * (c - 1) + "while (false) {}" + "}" * (c - 1), c
    yield "for (i = 1, 0) {\n" * (c - 1) + "for (i = 1, 0) {}" + "}" * (c - 1), c
    yield "function F() {\n" + "if (true) {} else {\n" * (c - 2) + "if (true) {} else {" + "}" * c, c


def main():
    parser = argparse.ArgumentParser()
    parser.add_argument("--runs", type=int, default=1000)
    parser.add_argument("--seed", type=int, default=30)
    args = parser.parse_args()
    if "AVSSERVE" not in os.environ:
        subprocess.run([os.path.join(ROOT, "build")], check=True, stdout=subprocess.DEVNULL)
    rng, wrong, refused = random.Random(args.seed), 0, 0
    with tempfile.TemporaryDirectory() as folder:
        for run in range(args.runs):
            kinds = []
            while not 1 <= len(kinds) <= 40:
                kinds = made(rng, "items", rng.randrange(4, 14))
            kinds = broken(rng, kinds)
            text, lines = text_of(rng, kinds)
            at = place([*seen(kinds), "end"])
            # the place of the token among all, with the newlines inside parentheses
            shown = [i for i in range(len(kinds) + 1) if i == len(kinds) or len(seen(kinds[: i + 1])) > len(seen(kinds[:i]))]
            want = None if at is None else (lines[shown[at]], "Syntax")
            refused += at is not None
            got = answer(folder, text)
            if got != want:
                wrong += 1
                print(f"wrong: run {run}: {got} for {want}:\n{text}")
        for text, line in deep(32):
            if answer(folder, text):
                wrong += 1
                print(f"wrong: 32 deep: {answer(folder, text)}:\n{text}")
        for text, line in deep(33):
            if answer(folder, text) != (line, "NestLimit"):
                wrong += 1
                print(f"wrong: 33 deep: {answer(folder, text)} for line {line}:\n{text}")
    print(f"places: {args.runs} scripts, {refused} with a fault, and 20 that nest 32 or 33 deep: {wrong} wrong")
    return 1 if wrong else 0


if __name__ == "__main__":
    sys.exit(main())
