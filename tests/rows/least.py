"""Least articles: their size at caps round it, the rule by which one is chosen, and sets that allow none."""

from .form import Row

BOTH = "<!ELEMENT r (a,b?)><!ELEMENT a EMPTY><!ATTLIST a k NMTOKEN #REQUIRED>"
A = "<!ELEMENT a EMPTY>"
B = "<!ELEMENT b EMPTY>"


def least(size, article):
    return f"least {size}\n{article}\n"


# Name, the set, the root, the cap, the status, the output.
ROWS = [
    ("a required child with a required attribute", BOTH, "r", 10, 0, least(2, '<r><a k="a"/></r>')),
    ("the cap is the size", BOTH, "r", 2, 0, least(2, '<r><a k="a"/></r>')),
    ("the cap is one less", BOTH, "r", 1, 0, "above 1\n"),
    ("the cap is nought", BOTH, "r", 0, 0, "above 0\n"),
    ("no document", "<!ELEMENT a (a)>", "a", 9, 1, "none\n"),
    ("no document at the highest cap", "<!ELEMENT a (a)>", "a", 100000, 1, "none\n"),
    ("an empty element", A, "a", 1, 0, least(1, "<a/>")),
    ("mixed content", "<!ELEMENT r (#PCDATA|a)*>" + A, "r", 5, 0, least(1, "<r/>")),
    ("any content", "<!ELEMENT r ANY>" + A, "r", 5, 0, least(1, "<r/>")),
    ("a choice with a document", "<!ELEMENT r (x|a)><!ELEMENT x (x)>" + A, "r", 5, 0, least(2, "<r><a/></r>")),
    ("a child that is not declared", "<!ELEMENT r (q|a)>" + A, "r", 5, 0, least(2, "<r><a/></r>")),
    ("no child that is declared", "<!ELEMENT r (q)>", "r", 5, 1, "none\n"),
    ("the first of two steps as small", "<!ELEMENT r (b|a)>" + A + B, "r", 5, 0, least(2, "<r><b/></r>")),
    ("the smaller of two steps", "<!ELEMENT r (x|b)><!ELEMENT x (a)>" + A + B, "r", 5, 0, least(2, "<r><b/></r>")),
    ("a state that accepts has no more children", "<!ELEMENT r (a+)>" + A, "r", 5, 0, least(2, "<r><a/></r>")),
    ("a shorter way round", "<!ELEMENT r ((a,a,a)|x)><!ELEMENT x (a,a)>" + A, "r", 9, 0, least(4, "<r><a/><a/><a/></r>")),
    ("an element in itself where it may be", "<!ELEMENT r (r?,a)>" + A, "r", 9, 0, least(2, "<r><a/></r>")),
    ("required attributes in order of declaration", A + "<!ATTLIST a z CDATA #REQUIRED b CDATA 'x' y (q|p) #REQUIRED c CDATA #IMPLIED>",
     "a", 9, 0, least(1, '<a z="" y="q"/>')),
    ("a required attribute of each class",
     "<!ELEMENT a (#PCDATA)><!NOTATION n SYSTEM ''><!ATTLIST a i ID #REQUIRED j IDREF #REQUIRED l IDREFS #REQUIRED e ENTITY #REQUIRED f ENTITIES #REQUIRED "
     "t NMTOKEN #REQUIRED u NMTOKENS #REQUIRED o NOTATION (n) #REQUIRED>", "a", 9, 0,
     least(1, '<a i="a" j="a" l="a" e="a" f="a" t="a" u="a" o="n"/>')),
    ("fixed values are not written", A + "<!ATTLIST a k CDATA #FIXED 'x'>", "a", 9, 0, least(1, "<a/>")),
    ("names of other letters", "<!ELEMENT é (語)><!ELEMENT 語 EMPTY>", "é", 9, 0, least(2, "<é><語/></é>")),
    ("a root that is not declared", A, "b", 9, 2, "refused E40 RootUndeclared - 0 b\n"),
    ("a root that is no name", A, "1", 9, 2, "refused E40 RootUndeclared - 0 1\n"),
    ("a set with a fault", "x", "a", 9, 2, "refused E20 Malformed m.dtd 0\n"),
    ("a cap with a leading nought", A, "a", "01", 3, "usage\n"),
    ("a cap above all", A, "a", 100001, 3, "usage\n"),
    ("a cap of many digits", A, "a", "9" * 30, 3, "usage\n"),
    ("a cap with a sign", A, "a", "-1", 3, "usage\n"),
    ("a cap that is no number", A, "a", "x", 3, "usage\n"),
]


def doublings(last):
    """e0 holds two of e1, and so on: the least document from e0 has 2^(last+1) - 1 elements."""
    return "".join(f"<!ELEMENT e{k} (e{k + 1},e{k + 1})>" for k in range(last)) + f"<!ELEMENT e{last} EMPTY>"


def doubled(k, last):
    return f"<e{k}/>" if k == last else f"<e{k}>{doubled(k + 1, last) * 2}</e{k}>"


def chain(length):
    return "".join(f"<!ELEMENT c{k} (c{k + 1})>" for k in range(length - 1)) + f"<!ELEMENT c{length - 1} EMPTY>"


def chained(length):
    return "".join(f"<c{k}>" for k in range(length - 1)) + f"<c{length - 1}/>" + "".join(f"</c{k}>" for k in reversed(range(length - 1)))


def row(name, dtd, root, cap, status, output):
    return Row("least: " + name, {"m.dtd": dtd}, f"least - m.dtd {root} {cap}", status, output)


def rows():
    more = [row(f"a chain of doublings, at {cap}", doublings(4), "e0", cap, 0, output)
            for cap, output in ((30, "above 30\n"), (31, least(31, doubled(0, 4))), (32, least(31, doubled(0, 4))))]
    deep = row("1,024 elements in one another", chain(1024), "c0", 2000, 0, least(1024, chained(1024)))
    return [row(*each) for each in ROWS] + more + [deep]


def slow_rows():
    return [row("65,535 elements", doublings(15), "e0", 100000, 0, least(65535, doubled(0, 15))),
            row("2,097,151 elements", doublings(20), "e0", 100000, 0, "above 100000\n")]
