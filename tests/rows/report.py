"""Reports of two sets: which useful elements break, and why."""

from .form import Row, compared, not_compared
from .modules import CUSTOMISED

A = "<!ELEMENT a EMPTY>"
B = "<!ELEMENT b EMPTY>"


def differs(*lines, useful):
    return "".join(f"differs {line}\n" for line in lines) + f"useful {useful} differs {len(lines)}\n"


def parts(names):
    return "(" + ",".join(["p"] * names) + ")*"


# Name, the first set, the second set, the root, the lines that differ, the number of useful elements.
REPORTS = [
    ("a set against itself", A, A, "a", (), 1),
    ("an element that the second does not declare", f"<!ELEMENT r (a)>{A}", "<!ELEMENT r (a)>", "r",
     ("a undeclared",), 2),
    ("an element that the second does not declare, and no document has",
     f"<!ELEMENT r (a?)>{A}<!ELEMENT x (#PCDATA)>", f"<!ELEMENT r (a?)>{A}", "r", (), 2),
    ("the order of a choice under a star", f"<!ELEMENT r (a|b)*>{A}{B}", f"<!ELEMENT r (b|a)*>{A}{B}", "r", (), 3),
    ("a name that may come once more", f"<!ELEMENT r (a,a?)>{A}", f"<!ELEMENT r (a)>{A}", "r", ("r content",), 2),
    ("a name that must come", f"<!ELEMENT r (a?)>{A}", f"<!ELEMENT r (a)>{A}", "r", ("r content",), 2),
    ("fewer lists of names", f"<!ELEMENT r (a)>{A}", f"<!ELEMENT r (a+)>{A}", "r", (), 2),
    ("a name without a document in the first", f"<!ELEMENT r (a|b)*>{A}<!ELEMENT b (b)>",
     f"<!ELEMENT r (a)*>{A}", "r", (), 2),
    ("a name without a document in the second", f"<!ELEMENT r (a|b)*>{A}{B}",
     f"<!ELEMENT r (a|b)*>{A}<!ELEMENT b (b)>", "r", ("b content",), 3),
    ("a step behind which only names without documents stand", f"<!ELEMENT r (a|(b,c))>{A}{B}<!ELEMENT c (c)>",
     f"<!ELEMENT r (a)>{A}{B}", "r", (), 2),
    ("a root without a document", "<!ELEMENT a (a)>", "<!ELEMENT a (a)>", "a", (), 0),
    ("a root without a document, which the second does not declare", "<!ELEMENT a (a)>", "", "a", (), 0),
    ("ANY against ANY", f"<!ELEMENT r ANY>{A}", f"<!ELEMENT r ANY>{A}", "r", (), 2),
    ("ANY against a list of all elements", f"<!ELEMENT r ANY>{A}", f"<!ELEMENT r (#PCDATA|r|a)*>{A}", "r", (), 2),
    ("ANY against a list of some elements", f"<!ELEMENT r ANY>{A}", f"<!ELEMENT r (#PCDATA|a)*>{A}", "r",
     ("r content",), 2),
    ("ANY against children of all names: text", f"<!ELEMENT r ANY>{A}", f"<!ELEMENT r (r|a)*>{A}", "r", ("r text",), 2),
    ("children against ANY", f"<!ELEMENT r (a,a)>{A}", "<!ELEMENT r ANY>" + A, "r", (), 2),
    ("children that may be none against nothing", "<!ELEMENT e (b?)>", "<!ELEMENT e EMPTY>", "e", ("e text",), 1),
    ("content comes before text", f"<!ELEMENT r (#PCDATA|a)*>{A}", f"<!ELEMENT r EMPTY>{A}", "r", ("r content",), 2),
    ("content comes before attributes", f"<!ELEMENT r (a?)>{A}<!ATTLIST r k CDATA #IMPLIED>", f"<!ELEMENT r EMPTY>{A}", "r",
     ("r content",), 2),
    ("text comes before attributes", "<!ELEMENT r (#PCDATA)><!ATTLIST r k CDATA #IMPLIED>", "<!ELEMENT r EMPTY>", "r",
     ("r text",), 1),
    ("an attribute that is lacking", f"{A}<!ATTLIST a k CDATA #IMPLIED>", A, "a", ("a attribute k",), 1),
    ("an attribute that is not covered", f"{A}<!ATTLIST a k (x|y) #IMPLIED>", f"{A}<!ATTLIST a k (x) #IMPLIED>", "a",
     ("a attribute k",), 1),
    ("an attribute that is covered", f"{A}<!ATTLIST a k (x|y) #IMPLIED>", f"{A}<!ATTLIST a k NMTOKEN #IMPLIED>", "a", (), 1),
    ("an attribute that is missing", A, f"{A}<!ATTLIST a k CDATA #REQUIRED>", "a", ("a attribute k",), 1),
    ("a lacking attribute before a missing one", f"{A}<!ATTLIST a z CDATA #IMPLIED>",
     f"{A}<!ATTLIST a k CDATA #REQUIRED>", "a", ("a attribute z",), 1),
    ("the first of two attributes", f"{A}<!ATTLIST a z CDATA #IMPLIED y CDATA #IMPLIED>", A, "a", ("a attribute z",), 1),
    ("in order of declaration", f"{B}<!ELEMENT r (a,b)>{A}", f"<!ELEMENT r (a?,b?)>", "r",
     ("b undeclared", "a undeclared"), 3),
    ("elements that only a breaking element reaches", f"<!ELEMENT r (a|b)>{A}<!ELEMENT b (#PCDATA)>",
     f"<!ELEMENT r (a)>{A}{B}", "r", ("r content", "b text"), 3),
]

# Name, the first set, the second set, the root, the line.
REFUSED = [
    ("a root that is not declared", A, A, "b", "E40 RootUndeclared - 0 b"),
    ("a root that the second alone declares", A, A + B, "b", "E40 RootUndeclared - 0 b"),
    ("a root that is no name", A, A, "1", "E40 RootUndeclared - 0 1"),
]


def sets(first, second):
    return {"m.dtd": first, "n.dtd": second}


def reported(name, first, second, root, lines, useful):
    output = differs(*lines, useful=useful)
    return Row("report: " + name, sets(first, second), f"report - m.dtd - n.dtd {root}", 1 if lines else 0, output)


def refused(name, first, second, root, line):
    return Row("report: " + name, sets(first, second), f"report - m.dtd - n.dtd {root}", 2, f"refused {line}\n")


def as_reported(name, first, second, root, lines, useful):
    """The same two sets compared."""
    head = f"not subset\nabove 0\nbroken {lines[0]}\n" if lines else f"subset\ndocuments {'some' if useful else 'none'}\n"
    return compared("compared as reported: " + name, first, second, root, 1 if lines else 0, head)


def many(elements, names):
    """Each element has the content of so many names under a star."""
    return "<!ELEMENT p EMPTY>" + "".join(f"<!ELEMENT {e} {parts(names)}>" for e in elements)


def rows():
    forth = Row("report: a customisation", CUSTOMISED, "report - base.dtd cat.txt custom.dtd article", 1,
                differs("title content", "p content", useful=5))
    back = Row("report: a customisation, the other way", CUSTOMISED, "report cat.txt custom.dtd - base.dtd article", 0,
               differs(useful=4))
    return [forth, back, *(reported(*row) for row in REPORTS), *(as_reported(*row) for row in REPORTS),
            *(refused(*row) for row in REFUSED)]


def slow_rows():
    # A content has the pairs (0, 0) and each (i, j): 1 + 1,023 * 1,024 of them.
    one = many("x", 1023), many("x", 1024)
    two = many("xy", 1023), many("xy", 1024)
    over = "refused E45 PairsOver - 0 y\n"
    return [
        Row("report: 1,047,553 pairs", sets(*one), "report - m.dtd - n.dtd x", 1, differs("x content", useful=2)),
        compared("compared as reported: 1,047,553 pairs", *one, "x", 1, "not subset\nabove 0\nbroken x content\n"),
        not_compared("compared as reported: twice as many pairs", *two, "x", over),
        Row("report: twice as many pairs", sets(*two), "report - m.dtd - n.dtd x", 2, over),
    ]
