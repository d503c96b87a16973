"""Comparisons of sets whose contents are character data or nothing, the order of their refusals, and words."""

from .form import Row, compared, compared_files, counts, not_compared
from .modules import CUSTOMISED

A = "<!ELEMENT a EMPTY>"
LISTED = "<!ELEMENT r (#PCDATA|a)*>" + A
PLAIN = "<!ELEMENT r (#PCDATA)>" + A
SOME = "subset\ndocuments some\n"


def broken(element, cause):
    return f"not subset\nabove 0\nbroken {element} {cause}\n"


# Name, the first set, the second set, the root, the status, the output.
VERDICTS = [
    ("a set against itself", A, A, "a", 0, SOME),
    ("a name that the second does not list", LISTED, PLAIN, "r", 1, broken("r", "content")),
    ("fewer names in the first", PLAIN, LISTED, "r", 0, SOME),
    ("a listed name that no element has", "<!ELEMENT r (#PCDATA|a)*>", PLAIN, "r", 0, SOME),
    ("the order of names is nothing", "<!ELEMENT r (#PCDATA|a|b)*><!ELEMENT a EMPTY><!ELEMENT b EMPTY>",
     "<!ELEMENT b EMPTY><!ELEMENT a EMPTY><!ELEMENT r (#PCDATA|b|a)*>", "r", 0, SOME),
    ("text against nothing", "<!ELEMENT r (#PCDATA)>", "<!ELEMENT r EMPTY>", "r", 1, broken("r", "text")),
    ("nothing against text", "<!ELEMENT r EMPTY>", "<!ELEMENT r (#PCDATA)>", "r", 0, SOME),
    ("an element that the second does not declare", LISTED, "<!ELEMENT r (#PCDATA|a)*>", "r", 1,
     broken("a", "undeclared")),
    ("a root that the second does not declare", A, "", "a", 1, broken("a", "undeclared")),
    ("an element that no document has may differ", PLAIN + "<!ELEMENT b (#PCDATA)>", PLAIN + "<!ELEMENT b EMPTY>",
     "r", 0, SOME),
    ("content comes before text", LISTED, "<!ELEMENT r EMPTY>" + A, "r", 1, broken("r", "content")),
    ("the first element that breaks", "<!ELEMENT b (#PCDATA)><!ELEMENT r (#PCDATA|b)*>",
     "<!ELEMENT b EMPTY><!ELEMENT r EMPTY>", "r", 1, broken("b", "text")),
    ("entities and notations are nothing to it", A + "<!ENTITY e ''><!NOTATION n SYSTEM ''>", A, "a", 0, SOME),
    ("a list of nothing is no attribute", A + "<!ATTLIST a>", A + "<!ATTLIST a >", "a", 0, SOME),
    ("a name put together by entities",
     '<!ENTITY % a "b"><!ENTITY % n "%a;c"><!ELEMENT r (#PCDATA|%n;)*><!ELEMENT bc EMPTY>',
     "<!ELEMENT r (#PCDATA|bc)*><!ELEMENT bc EMPTY>", "r", 0, SOME),
    ("a name put together by entities, the other way", "<!ELEMENT r (#PCDATA|bc)*><!ELEMENT bc EMPTY>",
     '<!ENTITY % a "b"><!ENTITY % n "%a;c"><!ELEMENT r (#PCDATA|%n;)*><!ELEMENT bc EMPTY>', "r", 0, SOME),
    ("content of the second is children", A, "<!ELEMENT b (a)>", "a", 1, broken("a", "undeclared")),
    ("content of the first is ANY", "<!ELEMENT a ANY>", A, "a", 1, broken("a", "content")),
    ("content of the second is ANY", A, A + "<!ELEMENT b ANY>", "a", 0, SOME),
    ("attributes of the first", A + "<!ATTLIST a k CDATA #IMPLIED>", A, "a", 1, broken("a", "attribute k")),
    ("attributes of the second", A, A + "<!ATTLIST a k CDATA #IMPLIED>", "a", 0, SOME),
    ("attributes of an element that is not declared", A, A + "<!ATTLIST z k CDATA #IMPLIED>", "a", 0, SOME),
    ("names of other letters", "<!ELEMENT é語 (#PCDATA)>", "<!ELEMENT é語 EMPTY>", "é語", 1, broken("é語", "text")),
]

# As above, all refused.
REFUSED = [
    ("children and a root that is not declared", "<!ELEMENT b (a)>", A, "r", "refused E40 RootUndeclared - 0 r\n"),
    ("attributes of the second and a root that is not declared", A, "<!ATTLIST z k CDATA ''>", "r",
     "refused E40 RootUndeclared - 0 r\n"),
    ("a root that is not declared", A, A, "b", "refused E40 RootUndeclared - 0 b\n"),
    ("a root that the second alone declares", A, A + "<!ELEMENT b EMPTY>", "b", "refused E40 RootUndeclared - 0 b\n"),
    ("a root that is only listed", "<!ELEMENT r (#PCDATA|a)*>", A, "a", "refused E40 RootUndeclared - 0 a\n"),
    ("a root that is no name", A, A, "1", "refused E40 RootUndeclared - 0 1\n"),
    ("a root that is an entity", "<!ENTITY e ''><!NOTATION e SYSTEM ''>", A, "e", "refused E40 RootUndeclared - 0 e\n"),
    ("a fault of the first with children", "<!ELEMENT b (a)> x", A, "a", "refused E20 Malformed m.dtd 17\n"),
    ("a fault of the second, children in the first", "<!ELEMENT b (a)>", " x", "a", "refused E20 Malformed n.dtd 1\n"),
    ("a fault of the second, attributes in the first", "<!ATTLIST a k CDATA ''>", A * 2, "a",
     "refused E30 DuplicateElement n.dtd 18 a\n"),
    ("faults of both", "x", " x", "a", "refused E20 Malformed m.dtd 0\n"),
    ("a fault at the end of the first, a fault of the second", "<!ENTITY e SYSTEM 's' NDATA n>", "x", "a",
     "refused E37 NotationUndeclared m.dtd 0 e n\n"),
    ("a fault at the end of the second", A, "<!ENTITY e SYSTEM 's' NDATA n>", "a",
     "refused E37 NotationUndeclared n.dtd 0 e n\n"),
    ("a fault of the second, a root that is not declared", A, " x", "b", "refused E20 Malformed n.dtd 1\n"),
    ("bytes of the second", A, b"\xff", "a", "refused E13 NotUtf8 n.dtd 0\n"),
    ("an empty set", "", "", "a", "refused E40 RootUndeclared - 0 a\n"),
]

FILES = {
    "m.dtd": A, "n.dtd": A, "bad.dtd": "\nx", "bad.txt": 'PUBLIC "x"', "good.txt": 'PUBLIC "p" "d/p.ent"',
    "d/p.ent": "\n\nx", "call.dtd": '<!ENTITY % p PUBLIC "p" "q.ent">%p;', "d/inner.ent": A + "x",
    "inner.dtd": '<!ENTITY % i SYSTEM "d/inner.ent">\n%i;',
}

# Name, the words, the status, the output.
WORDS = [
    ("the first catalog comes first", "compare bad.txt no.dtd no.txt no.dtd b 0", 2,
     "refused E50 CatalogMalformed bad.txt 1\n"),
    ("then the first entry", "compare - no.dtd bad.txt no.dtd b 0", 2, "refused E10 ModuleAbsent no.dtd 0\n"),
    ("then the faults of the first set", "compare - bad.dtd bad.txt no.dtd b 0", 2, "refused E20 Malformed bad.dtd 1\n"),
    ("then the second catalog", "compare - m.dtd bad.txt no.dtd b 0", 2, "refused E50 CatalogMalformed bad.txt 1\n"),
    ("a second catalog that is not there", "compare - m.dtd no.txt no.dtd b 0", 2, "refused E10 ModuleAbsent no.txt 0\n"),
    ("then the second entry", "compare - m.dtd - no.dtd b 0", 2, "refused E10 ModuleAbsent no.dtd 0\n"),
    ("then the faults of the second set", "compare - m.dtd - bad.dtd b 0", 2, "refused E20 Malformed bad.dtd 1\n"),
    ("a fault in an inner module of the second set names it", "compare - m.dtd - inner.dtd a 0", 2,
     "refused E20 Malformed d/inner.ent 18\n"),
    ("a fault in an inner module of the first set names it", "compare - inner.dtd - bad.dtd a 0", 2,
     "refused E20 Malformed d/inner.ent 18\n"),
    ("the catalog of the first is not that of the second", "compare good.txt m.dtd - call.dtd a 0", 2,
     "refused E10 ModuleAbsent q.ent 0\n"),
    ("the catalog of the second is not that of the first", "compare - call.dtd good.txt m.dtd a 0", 2,
     "refused E10 ModuleAbsent q.ent 0\n"),
    ("the second set by its catalog", "compare - m.dtd good.txt call.dtd a 0", 2, "refused E20 Malformed d/p.ent 2\n"),
    ("a root with blanks is written raw", ["compare", "-", "m.dtd", "-", "m.dtd", "a b", "0"], 2,
     "refused E40 RootUndeclared - 0 a b\n"),
    ("a root that is nothing leaves a blank at the end", ["compare", "-", "m.dtd", "-", "m.dtd", "", "0"], 2,
     "refused E40 RootUndeclared - 0 \n"),
    ("a number with leading noughts", "compare - m.dtd - m.dtd a 007", 3, "usage\n"),
    ("a number with a sign", "compare - m.dtd - m.dtd a -0", 3, "usage\n"),
    ("a number that is nothing", ["compare", "-", "m.dtd", "-", "m.dtd", "a", ""], 3, "usage\n"),
    ("a number above all", "compare - m.dtd - m.dtd a 100001", 3, "usage\n"),
    ("no number", "compare - m.dtd - m.dtd a", 3, "usage\n"),
    ("words come before files", "compare bad.txt no.dtd no.txt no.dtd b x", 3, "usage\n"),
    ("no words", [], 3, "usage\n"),
    ("an empty word", [""], 3, "usage\n"),
    ("a command alone", "check", 3, "usage\n"),
    ("a word too few", "check m.dtd", 3, "usage\n"),
    ("a word too many", "check - m.dtd -", 3, "usage\n"),
    ("a flat text of a word too few", "flatten m.dtd", 3, "usage\n"),
    ("a flat text of a word too many", "flatten - m.dtd a", 3, "usage\n"),
    ("a command in capitals", "CHECK - m.dtd", 3, "usage\n"),
    ("a command that is none", "exit - m.dtd", 3, "usage\n"),
    ("a question for help", "--help", 3, "usage\n"),
    ("a question for the version", "--version", 3, "usage\n"),
    ("a command behind an option", "-- check - m.dtd", 3, "usage\n"),
    ("a word that is no text", [b"check", b"-", b"\xff"], 3, "usage\n"),
    ("one entry counted", "check - m.dtd", 0, counts(1)),
    ("one entry flat", "flatten - m.dtd", 0, A + "\n"),
]


def customised():
    """The customisation with an article of character data, against its base."""
    files = dict(CUSTOMISED)
    files["base-models.ent"] = '<!ENTITY % article.model "(#PCDATA | title | p)*">\n'
    line = "compare cat.txt custom.dtd - base.dtd {} 0"
    back = "compare - base.dtd cat.txt custom.dtd {} 0"
    return [
        compared_files("a customisation against its base", files, line.format("article"), 0, SOME),
        compared_files("a base against its customisation", files, back.format("article"), 1, broken("title", "content")),
        compared_files("a phrase of a customisation", files, line.format("bold"), 0, SOME),
        compared_files("a phrase of a base", files, back.format("bold"), 0, SOME),
        compared_files("a customisation with an article of children", CUSTOMISED, line.format("article"), 0, SOME),
        compared_files("a base with an article of children", CUSTOMISED, back.format("article"), 1,
                       broken("title", "content")),
    ]


def rows():
    out = [compared("compared: " + name, *rest) for name, *rest in VERDICTS]
    out += [not_compared("not compared: " + name, *rest) for name, *rest in REFUSED]
    out += [Row("words: " + name, FILES, words, status, output) for name, words, status, output in WORDS]
    out.append(compared_files("words: one entry twice", FILES, "compare - m.dtd - m.dtd a 0", 0, SOME))
    return out + customised()
