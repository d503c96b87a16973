"""What a row is, and short ways to write one.

In the text of a module the sign ¶ marks the place that the refusal names, and is no part of the text.
In a line @ stands for the module and the place."""

import re
from typing import NamedTuple

MARK = "¶"
ENTRY = "m.dtd"
INNER = "d/x.ent"
CALL = '<!ENTITY % outer SYSTEM "d/x.ent">%outer;'


class Row(NamedTuple):
    name: str
    files: dict  # from names to texts, bytes, or calls that make them
    words: object  # a line of words, or a list of them
    status: int
    output: object  # a text or bytes, or a call that makes one


class Certified(NamedTuple):
    """A comparison whose output is a head, a certificate and a tail, and makes the claim where it is verified."""
    name: str
    files: dict
    words: str  # of compare; the last two are the root and the cap
    status: int
    head: str
    claim: str
    tail: str = ""


class Begun(NamedTuple):
    """An answer of which the first words are fixed."""
    name: str
    files: dict
    words: str
    status: int
    beginning: str


COST = "(inf|0|[1-9][0-9]*)"
NUMBER = "(0|[1-9][0-9]*)"
BETWEEN = re.compile(f"element [^ ]+ {COST} {COST}|state {NUMBER} {COST} {COST}|pair {NUMBER} {NUMBER} {COST}")


def certificate_fault(row, text):
    """What is wrong with the text as the output of a certified row, or None."""
    *_, root, cap = row.words.split(" ")
    start = f"{row.head}certificate 1 {root} {cap}\n"
    if not text.startswith(start):
        return f"it does not begin with {start!r}"
    lines, end, rest = text[len(start):].partition("\nend\n")
    if not end:
        return "the certificate does not end"
    strange = [line for line in lines.split("\n") if not BETWEEN.fullmatch(line)]
    if strange:
        return f"the certificate has the line {strange[0]!r}"
    return None if rest == row.tail else f"behind the certificate stands {rest[:300]!r}, wanted {row.tail[:300]!r}"


def verified(row, output, claim):
    """The output of a row of compare, verified beside the same files."""
    words = ["verify", "c.txt", *row.words.split(" ")[1:5]]
    return Row(row.name + ", verified", {**row.files, "c.txt": output}, words, 0, claim + "\n")


def counts(elements=0, attributes=0, entities=0, notations=0):
    """The output of check."""
    return (f"ok\nelements {elements}\nattributes {attributes}\n"
            f"entities {entities}\nnotations {notations}\n")


def place(text, module=ENTRY):
    """The module and the place of the mark."""
    return f"{module} {max(text.find(MARK), 0)}"


def unmarked(text):
    return text.replace(MARK, "") if isinstance(text, str) else text


def refused_files(name, files, line, words="check - m.dtd"):
    """A refusal of these files; the mark stands in at most one of them."""
    marked = [n for n, text in files.items() if isinstance(text, str) and MARK in text]
    where = place(files[marked[0]], marked[0]) if marked else place("")
    plain = {n: unmarked(text) for n, text in files.items()}
    return Row(name, plain, words, 2, f"refused {line.replace('@', where)}\n")


def refused(name, text, line):
    """A refusal of the entry."""
    return refused_files(name, {ENTRY: text}, line)


def refused_inside(name, text, line):
    """A refusal of a module that the entry calls; its text declaration does not count."""
    where = place(text, INNER)
    files = {ENTRY: CALL, INNER: "<?xml encoding='UTF-8'?>" + unmarked(text)}
    output = f"refused {line.replace('@', where)}\n"
    return Row(name + ", in an inner module", files, "check - m.dtd", 2, output)


def refused_at_end(name, text, line):
    """A refusal after the last item: the place is the entry and 0, whatever module it stands in."""
    files = {ENTRY: CALL, INNER: text}
    output = f"refused {line.replace('@', place(''))}\n"
    return Row(name + ", in an inner module", files, "check - m.dtd", 2, output)


def refused_both(name, text, line):
    """A refusal of the entry, and of a module that the entry calls."""
    return [refused(name, text, line), refused_inside(name, text, line)]


def beside(subject, name, bad, line, good, numbers):
    """A refusal beside its nearest neighbour that is accepted."""
    return [*refused_both(f"{subject}: {name}", bad, line), counted(f"accepted beside: {subject}: {name}", good, *numbers)]


def beside_at_end(name, bad, line, good, numbers):
    name = "at the end: " + name
    return [refused(name, " " + bad, line), refused_at_end(name, bad, line),
            counted("accepted beside: " + name, good, *numbers)]


def each(make, listed):
    """The rows that each item of a list gives."""
    return [row for item in listed for row in make(*item)]


def counted(name, text, *numbers):
    return Row(name, {ENTRY: text}, "check - m.dtd", 0, counts(*numbers))


def flat(name, text, output):
    return Row(name, {ENTRY: text}, "flatten - m.dtd", 0, output)


def flat_twice(name, files, words, output, *numbers):
    """The flat text of the files; it is its own flat text and has the same counts."""
    check = "check " + words
    return [
        Row(name, files, "flatten " + words, 0, output),
        Row(name + ", counted", files, check, 0, counts(*numbers)),
        flat(name + ", read again", output, output),
        counted(name + ", read again and counted", output, *numbers),
    ]


def stands(name, text, *numbers):
    """A text that is its own flat text."""
    return [flat(name, text, text), counted(name + ", counted", text, *numbers)]


def compared_files(name, files, words, status, head):
    """A comparison at cap 0."""
    return Certified(name, files, words, status, head, "certified at least 1" if status else "certified subset")


def compared(name, first, second, root, status, head):
    return compared_files(name, {"m.dtd": first, "n.dtd": second}, f"compare - m.dtd - n.dtd {root} 0", status, head)


def not_compared(name, first, second, root, output):
    return Row(name, {"m.dtd": first, "n.dtd": second}, f"compare - m.dtd - n.dtd {root} 0", 2, output)
