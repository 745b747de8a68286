"""A journal, damaged in one place: for tests/journal.py. Each function takes dice and the lines of a journal, and gives its text."""

from machine import COUNTS, MOST_WORKERS


def text_of(lines):
    return b"".join(line + b"\n" for line in lines)


def dropped(dice, lines):
    at = dice.randrange(len(lines))
    return text_of(lines[:at] + lines[at + 1 :])


def doubled(dice, lines):
    at = dice.randrange(len(lines))
    return text_of(lines[: at + 1] + lines[at:])


def exchanged(dice, lines):
    at = dice.randrange(len(lines) - 1)
    return text_of([*lines[:at], lines[at + 1], lines[at], *lines[at + 2 :]])


def with_line(lines, at, line):
    return text_of([*lines[:at], line, *lines[at + 1 :]])


def with_part(lines, at, part, change):
    """A part of a line is another one."""
    parts = lines[at].split(b" ")
    parts[part] = change(parts[part])
    return with_line(lines, at, b" ".join(parts))


def other_number(dice, lines):
    at = dice.randrange(len(lines))
    numbers = [part for part, it in enumerate(lines[at].split(b" ")) if it.isdigit()]
    step = dice.choice([-1, 1])
    return with_part(lines, at, dice.choice(numbers), lambda part: b"%d" % abs(int(part) + step))


def other_worker(dice, lines):
    return with_part(lines, dice.randrange(len(lines)), 1, lambda part: b"%d" % dice.randrange(MOST_WORKERS + 1))


def other_word(dice, lines):
    at = dice.randrange(len(lines))
    alike = [word for word, count in COUNTS.items() if count == lines[at].count(b" ")]
    return with_part(lines, at, 0, lambda part: dice.choice(alike))


def moved_head(dice, lines):
    """The first line of a window stands elsewhere, or begins elsewhere."""
    at = dice.choice([at for at, line in enumerate(lines) if line.startswith(b"window")])
    if dice.random() < 0.5:
        return with_part(lines, at, dice.randint(1, 2), lambda part: b"%d" % dice.randrange(int(part) + 3))
    rest = lines[:at] + lines[at + 1 :]
    to = min(max(at + dice.randint(-3, 3), 0), len(rest))
    return text_of([*rest[:to], lines[at], *rest[to:]])


def with_zero(dice, lines):
    at = dice.randrange(len(lines))
    return with_part(lines, at, dice.randrange(1, lines[at].count(b" ") + 1), lambda part: b"0" + part)


def with_byte(dice, lines):
    """A blank or another byte stands somewhere in a line."""
    at = dice.randrange(len(lines))
    place = dice.choice([0, len(lines[at]), lines[at].index(b" "), dice.randint(0, len(lines[at]))])
    byte = dice.choice([b" ", b" ", b" ", b"\t", b"\r", b"\n", b"\0", b"-", b"+", b"\xff"])
    return with_line(lines, at, lines[at][:place] + byte + lines[at][place:])


def with_return(dice, lines):
    at = dice.randrange(len(lines))
    return dice.choice([with_line(lines, at, lines[at] + b"\r"), text_of(line + b"\r" for line in lines)])


def cut(dice, lines):
    """The text ends in a line, or before one."""
    text = text_of(lines)
    return text[: dice.choice([dice.randrange(len(text)), len(text) - 1, text.index(b"\n", dice.randrange(len(text))) + 1])]


def with_event(dice, lines):
    """An event of another place of the journal comes once more."""
    at = dice.randrange(2, len(lines))
    return text_of([*lines[:at], dice.choice(lines), *lines[at:]])


DAMAGE = [
    dropped, doubled, exchanged, other_number, other_number, other_worker, other_word, moved_head, with_zero, with_byte,
    with_return, cut, with_event,
]
