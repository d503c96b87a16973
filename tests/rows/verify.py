"""Certificates verified: claims, each kind of inequality that can fail, and the first line that is not as needed."""

from .form import Row

FIRST = "<!ELEMENT r (p+)><!ELEMENT p EMPTY>"
SECOND = "<!ELEMENT r (p,(p,(p,(p,p?)?)?)?)><!ELEMENT p EMPTY>"
WORDS = "verify c.txt - m.dtd - n.dtd"

LEAST = """certificate 1 r 7
element r 2 7
state 0 1 inf
state 1 0 inf
pair 0 0 6
pair 1 1 5
pair 1 2 4
pair 1 3 3
pair 1 4 2
pair 1 5 1
element p 1 inf
state 0 0 inf
pair 0 0 inf
end
"""

A = "<!ELEMENT a EMPTY>"
SUBSET = """subset
documents some
certificate 1 a 0
element a 1 inf
state 0 0 inf
pair 0 0 inf
end
"""

NONE = "<!ELEMENT a (a)>"
NOTHING = """certificate 1 a 0
element a inf inf
state 0 inf inf
state 1 0 inf
pair 0 0 inf
end
"""

TEXT = "<!ELEMENT e (b?)>"
NO_TEXT = "<!ELEMENT e EMPTY>"
SPACE = """certificate 1 e 5
element e 1 1
state 0 0 inf
state 1 0 inf
pair 0 0 inf
end
"""


def row(name, certificate, output, status=0, first=FIRST, second=SECOND, words=WORDS):
    files = {"m.dtd": first, "n.dtd": second, "c.txt": certificate}
    return Row("verify: " + name, files, words, status, output)


def refused(name, certificate, line, first=FIRST, second=SECOND):
    return row(name, certificate, f"refused E70 CertMalformed c.txt {line}\n", 2, first, second)


def changed(old, new):
    assert LEAST.count(old) == 1
    return LEAST.replace(old, new)


def claims():
    return [
        row("a least number", LEAST, "certified at least 7\n"),
        row("a least number at a lower cap", changed("certificate 1 r 7", "certificate 1 r 6"), "certified at least 7\n"),
        row("a subset between other lines", SUBSET, "certified subset\n", first=A, second=A),
        row("a set without documents", NOTHING, "certified subset\n", first=NONE, second=NONE),
        row("a run of white space", SPACE, "certified at least 1\n", first=TEXT, second=NO_TEXT),
        row("text before and behind", "certify\n\n" + LEAST + "end\ncertificate x\n", "certified at least 7\n"),
        row("a weaker bound", changed("element r 2 7", "element r 2 6"), "certified at least 6\n"),
        row("no bound at all", LEAST.replace("element r 2 7", "element r 0 0"), "certified at least 0\n"),
        row("no last line end", LEAST.rstrip("\n"), "certified at least 7\n"),
        row("lines that end in CR LF", LEAST.replace("\n", "\r\n"), "certified at least 7\n"),
        row("a mark in front", "\ufeff" + LEAST, "certified at least 7\n"),
    ]


def failing():
    """One inequality that fails: its kind, its place and both costs."""
    said = "not certified {}\n".format
    return [
        row("kind 1", changed("state 1 0 inf", "state 1 1 inf"), said("1 r 1 1 0"), 1),
        row("kind 2", changed("state 0 1 inf", "state 0 2 inf"), said("2 r 0 p 2 1"), 1),
        row("kind 5", """certificate 1 e 5
element e 1 inf
state 0 0 inf
pair 0 0 inf
end
""", said("5 e 0 0 inf 0"), 1, "<!ELEMENT e ANY>", "<!ELEMENT e (e)>"),
        row("kind 6", changed("pair 1 1 5", "pair 1 1 6"), said("6 r 1 1 p 6 5"), 1),
        row("kind 7", changed("pair 1 5 1", "pair 1 5 2"), said("7 r 1 5 p 2 1"), 1),
        row("kind 8", changed("element r 2 7", "element r 3 7"), said("8 r 3 2"), 1),
        row("kind 10", changed("element r 2 7", "element r 2 8"), said("10 r 8 7"), 1),
        row("kind 11", SPACE.replace("element e 1 1", "element e 1 2"), said("11 e 2 1"), 1, TEXT, NO_TEXT),
        row("the first of two", changed("state 0 1 inf", "state 0 2 inf").replace("pair 1 5 1", "pair 1 5 2"), said("2 r 0 p 2 1"), 1),
    ]


def malformed():
    return [
        refused("no certificate", "subset\n", 2),
        refused("nothing", "", 1),
        refused("no end", SUBSET.replace("end\n", ""), 7, A, A),
        refused("another version", changed("certificate 1 r 7", "certificate 2 r 7"), 1),
        refused("a root that is not declared", changed("certificate 1 r 7", "certificate 1 q 7"), 1),
        refused("a cap above all", changed("certificate 1 r 7", "certificate 1 r 100001"), 1),
        refused("no cap", changed("certificate 1 r 7", "certificate 1 r"), 1),
        refused("a number with a leading nought", changed("element r 2 7", "element r 02 7"), 2),
        refused("a cost above the cap and one", changed("element r 2 7", "element r 2 9"), 2),
        refused("a cost of no form", changed("element r 2 7", "element r 2 Inf"), 2),
        refused("another element", changed("element r 2 7", "element p 2 7"), 2),
        refused("a missing state", changed("state 1 0 inf\n", ""), 4),
        refused("a state of another number", changed("state 1 0 inf", "state 2 0 inf"), 4),
        refused("one state more", changed("pair 0 0 6", "state 2 0 inf\npair 0 0 6"), 5),
        refused("pairs out of order", changed("pair 1 1 5\npair 1 2 4", "pair 1 2 4\npair 1 1 5"), 7),
        refused("a pair twice", changed("pair 1 1 5", "pair 1 1 5\npair 1 1 5"), 7),
        refused("a state that the first has not", changed("pair 1 5 1", "pair 2 5 1"), 10),
        refused("a state that the second has not", changed("pair 1 5 1", "pair 1 6 1"), 10),
        refused("a pair of a huge state", changed("pair 1 5 1", "pair 1 4294967296 1"), 10),
        refused("a pair of an element that the second lacks", LEAST, 5, second="<!ELEMENT q EMPTY>"),
        refused("two spaces", changed("element r 2 7", "element r  2 7"), 2),
        refused("a space at the end", changed("element r 2 7", "element r 2 7 "), 2),
        refused("end with more behind it", changed("end", "end "), 14),
        refused("elements in another order", LEAST, 2, first="<!ELEMENT p EMPTY><!ELEMENT r (p+)>"),
    ]


def order():
    files = {"m.dtd": FIRST, "n.dtd": SECOND, "c.txt": LEAST, "bad.dtd": "x", "latin.txt": b"\xff"}
    return [
        Row("verify: " + name, files, words, status, output) for name, words, status, output in (
            ("the first set comes first", "verify no.txt - bad.dtd - no.dtd", 2, "refused E20 Malformed bad.dtd 0\n"),
            ("then the second", "verify no.txt - m.dtd - no.dtd", 2, "refused E10 ModuleAbsent no.dtd 0\n"),
            ("then the certificate", "verify no.txt - m.dtd - n.dtd", 2, "refused E10 ModuleAbsent no.txt 0\n"),
            ("bytes of a certificate", "verify latin.txt - m.dtd - n.dtd", 2, "refused E13 NotUtf8 latin.txt 0\n"),
            ("a word too few", "verify c.txt - m.dtd -", 3, "usage\n"),
            ("a word too many", "verify c.txt - m.dtd - n.dtd r", 3, "usage\n"),
        )
    ]


def rows():
    return claims() + failing() + malformed() + order()
