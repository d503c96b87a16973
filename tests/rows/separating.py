"""Separating articles at every cap: their size, which one is chosen, certificates, and what verifies them."""

from .form import Begun, Certified, Row, verified
from .least import chain, doublings

A = "<!ELEMENT a EMPTY>"
B = "<!ELEMENT b EMPTY>"
C = "<!ELEMENT c EMPTY>"
P = "<!ELEMENT p EMPTY>"
ABC = A + B + C
TEXT = "<!ELEMENT a (#PCDATA)>"
BELOW = "<!ELEMENT r (a)>" + A


def has(*definitions):
    return A + "<!ATTLIST a " + " ".join(definitions) + ">"


def with_last(declarations, content):
    """The declarations with another content in the place of the last, which is EMPTY."""
    return declarations.removesuffix("EMPTY>") + content + ">"


# Name, the first set, the second set, the root, the cap, the size, the broken line, the article.
ODD = [
    ("all text against none", "<!ELEMENT r (#PCDATA)>", "<!ELEMENT r EMPTY>", "r", 5, 1, "r text", "<r>x</r>"),
    ("all text against white space", "<!ELEMENT r (#PCDATA)>", "<!ELEMENT r (b?)>", "r", 5, 1, "r text", "<r>x</r>"),
    ("white space against none", "<!ELEMENT e (b?)>", "<!ELEMENT e EMPTY>", "e", 1, 1, "e text", "<e> </e>"),
    ("white space before children", BELOW, "<!ELEMENT r EMPTY>" + A, "r", 5, 2, "r content", "<r> <a/></r>"),
    ("all text of ANY against white space", "<!ELEMENT r ANY>", "<!ELEMENT r (r*)>", "r", 5, 1, "r text", "<r>x</r>"),
    ("all text of ANY against none", "<!ELEMENT r ANY>", "<!ELEMENT r EMPTY>", "r", 5, 1, "r text", "<r>x</r>"),
    ("an attribute lacks: any text", has("k CDATA #IMPLIED"), A, "a", 5, 1, "a attribute k", '<a k=""/>'),
    ("an attribute lacks: a name token", has("k NMTOKENS #IMPLIED"), A, "a", 5, 1, "a attribute k", '<a k="a"/>'),
    ("an attribute lacks: the first of a list, not the default", has("k (x|y) 'y'"), A, "a", 5, 1, "a attribute k",
     '<a k="x"/>'),
    ("an attribute lacks: a fixed value", has("k CDATA #FIXED 'u &#38; v'"), A, "a", 5, 1, "a attribute k",
     '<a k="u &amp; v"/>'),
    ("an attribute lacks: the first of two", has("z CDATA #IMPLIED", "k CDATA #IMPLIED"), A, "a", 5, 1,
     "a attribute z", '<a z=""/>'),
    ("an attribute lacks before one is missing", has("z CDATA #IMPLIED"), has("k CDATA #REQUIRED"), "a", 5, 1,
     "a attribute z", '<a z=""/>'),
    ("not covered: a list", has("k (x|y) #IMPLIED"), has("k (x) #IMPLIED"), "a", 5, 1, "a attribute k", '<a k="y"/>'),
    ("not covered: a list against names", has("k (x|1|2) #IMPLIED"), has("k ID #IMPLIED"), "a", 5, 1, "a attribute k",
     '<a k="1"/>'),
    ("not covered: a list against a fixed token", has("k (x|y) #IMPLIED"), has("k NMTOKEN #FIXED 'x'"), "a", 5, 1,
     "a attribute k", '<a k="y"/>'),
    ("not covered: a list against a fixed text", has("k (x) #IMPLIED"), has("k CDATA #FIXED 'x'"), "a", 5, 1,
     "a attribute k", '<a k=" x"/>'),
    ("not covered: a name token against a fixed text", has("k NMTOKEN #IMPLIED"), has("k CDATA #FIXED 'a'"), "a", 5, 1,
     "a attribute k", '<a k="aa"/>'),
    ("not covered: a name token against a list", has("k NMTOKEN #IMPLIED"), has("k (a|aa) #IMPLIED"), "a", 5, 1,
     "a attribute k", '<a k="aaa"/>'),
    ("not covered: a name token against names", has("k NMTOKEN #IMPLIED"), has("k ID #IMPLIED"), "a", 5, 1,
     "a attribute k", '<a k="1"/>'),
    ("not covered: name tokens against one", has("k NMTOKENS #IMPLIED"), has("k NMTOKEN #IMPLIED"), "a", 5, 1,
     "a attribute k", '<a k="a a"/>'),
    ("not covered: any text against a name token", has("k CDATA #IMPLIED"), has("k NMTOKEN #IMPLIED"), "a", 5, 1,
     "a attribute k", '<a k=""/>'),
    ("not covered: any text against fixed nothing", has("k CDATA #IMPLIED"), has("k CDATA #FIXED ''"), "a", 5, 1,
     "a attribute k", '<a k="x"/>'),
    ("not covered: a fixed text", has("k CDATA #FIXED 'u v'"), has("k NMTOKEN #IMPLIED"), "a", 5, 1, "a attribute k",
     '<a k="u v"/>'),
    ("a value in the place of a sample", has("j CDATA #REQUIRED", "k (x|y) #REQUIRED", "l NMTOKEN #REQUIRED"),
     has("j CDATA #REQUIRED", "k (x) #REQUIRED", "l NMTOKEN #REQUIRED"), "a", 5, 1, "a attribute k",
     '<a j="" k="y" l="a"/>'),
    ("a value between samples, in order of declaration",
     has("j CDATA #REQUIRED", "i CDATA #IMPLIED", "k (x|y) #IMPLIED", "l NMTOKEN #REQUIRED"),
     has("l NMTOKEN #IMPLIED", "k (x) #IMPLIED", "j CDATA #IMPLIED", "i CDATA #IMPLIED"), "a", 5, 1, "a attribute k",
     '<a j="" k="y" l="a"/>'),
    ("missing: an attribute that the first has not", has("j CDATA #REQUIRED"),
     has("k CDATA #REQUIRED", "j CDATA #IMPLIED"), "a", 5, 1, "a attribute k", '<a j=""/>'),
    ("missing: an attribute that the first allows", has("k CDATA #IMPLIED"), has("k CDATA #REQUIRED"), "a", 5, 1,
     "a attribute k", "<a/>"),
    ("missing: the first of two", A, has("l CDATA #REQUIRED", "k CDATA #REQUIRED"), "a", 5, 1, "a attribute l", "<a/>"),
    ("the root is undeclared", BELOW, A, "r", 5, 2, "r undeclared", "<r><a/></r>"),
    ("an element below the root is undeclared", BELOW, "<!ELEMENT r (a)>", "r", 2, 2, "a undeclared", "<r><a/></r>"),
    ("an undeclared element with what it needs", f"<!ELEMENT r (a)><!ELEMENT a (b)><!ATTLIST a k CDATA #REQUIRED>{B}",
     f"<!ELEMENT r (a)>{B}", "r", 5, 3, "a undeclared", '<r><a k=""><b/></a></r>'),
]

NAMES = [
    ("a name at once", "<!ELEMENT r (a|b)>" + ABC, "<!ELEMENT r (a)>" + ABC, "r", 5, 2, "r content", "<r><b/></r>"),
    ("a name later", "<!ELEMENT r (a,b?)>" + ABC, "<!ELEMENT r (a)>" + ABC, "r", 5, 3, "r content", "<r><a/><b/></r>"),
    ("too few names: none", "<!ELEMENT r (a?)>" + A, BELOW, "r", 5, 1, "r content", "<r/>"),
    ("too few names: one", "<!ELEMENT r (a,a?)>" + A, "<!ELEMENT r (a,a)>" + A, "r", 5, 2, "r content", "<r><a/></r>"),
    ("one name too many", "<!ELEMENT r (a*)>" + A, "<!ELEMENT r ((a,a?)?)>" + A, "r", 5, 4, "r content",
     "<r><a/><a/><a/></r>"),
    ("the other order", "<!ELEMENT r (a,b)>" + ABC, "<!ELEMENT r (b,a)>" + ABC, "r", 5, 3, "r content",
     "<r><a/><b/></r>"),
    ("an order where any was allowed", "<!ELEMENT r (a|b)*>" + ABC, "<!ELEMENT r (a*,b*)>" + ABC, "r", 5, 3,
     "r content", "<r><b/><a/></r>"),
    ("names behind the step that the second lacks", f"<!ELEMENT r ((b,a,a)|a)>{ABC}", f"<!ELEMENT r (a)>{ABC}", "r", 9,
     4, "r content", "<r><b/><a/><a/></r>"),
    ("the least of two ways behind that step", f"<!ELEMENT r (a|(b,(x|c)))><!ELEMENT x (a)>{ABC}",
     f"<!ELEMENT r (a)><!ELEMENT x (a)>{ABC}", "r", 9, 3, "r content", "<r><b/><c/></r>"),
    ("the first of two refused names", f"<!ELEMENT r (a|c|b)>{ABC}", f"<!ELEMENT r (a)>{ABC}", "r", 5, 2, "r content",
     "<r><c/></r>"),
    ("the smaller of two refused names", f"<!ELEMENT r (x|a|b)><!ELEMENT x (a)>{ABC}",
     f"<!ELEMENT r (a)><!ELEMENT x (a)>{ABC}", "r", 5, 2, "r content", "<r><b/></r>"),
    ("a refused name with what it needs",
     f"<!ELEMENT r (a|x)><!ELEMENT x (b,c)><!ATTLIST x k NMTOKEN #REQUIRED>{ABC}",
     f"<!ELEMENT r (a)><!ELEMENT x (b,c)><!ATTLIST x k NMTOKEN #REQUIRED>{ABC}", "r", 5, 4, "r content",
     '<r><x k="a"><b/><c/></x></r>'),
    ("a name without documents leads nowhere", f"<!ELEMENT r ((x,b)|(a,a,c))><!ELEMENT x (x)>{ABC}",
     f"<!ELEMENT r (x|(a,a))><!ELEMENT x (x)>{ABC}", "r", 9, 4, "r content", "<r><a/><a/><c/></r>"),
    ("a name without documents in the second", f"<!ELEMENT r (a|b)>{ABC}", f"<!ELEMENT r (a|b)>{A}<!ELEMENT b (b)>",
     "r", 5, 2, "b content", "<r><b/></r>"),
    ("stop or go on: stop", "<!ELEMENT r (a*)>" + A, "<!ELEMENT r (a,a)>" + A, "r", 5, 1, "r content", "<r/>"),
]

INSIDE = [
    ("a child in the first place", "<!ELEMENT r (a,b,c)>" + TEXT + B + C, "<!ELEMENT r (a,b,c)>" + ABC, "r", 9, 4,
     "a text", "<r><a>x</a><b/><c/></r>"),
    ("a child in the second place", "<!ELEMENT r (b,a,c)>" + TEXT + B + C, "<!ELEMENT r (b,a,c)>" + ABC, "r", 9, 4,
     "a text", "<r><b/><a>x</a><c/></r>"),
    ("a child in the last place", "<!ELEMENT r (b,c,a)>" + TEXT + B + C, "<!ELEMENT r (b,c,a)>" + ABC, "r", 9, 4,
     "a text", "<r><b/><c/><a>x</a></r>"),
    ("the first of two children that may separate", "<!ELEMENT r (a,a)>" + TEXT, "<!ELEMENT r (a,a)>" + A, "r", 9, 3,
     "a text", "<r><a>x</a><a/></r>"),
    ("the first of two names that may separate", "<!ELEMENT r (b|a)><!ELEMENT b (#PCDATA)>" + TEXT,
     "<!ELEMENT r (b|a)>" + ABC, "r", 9, 2, "b text", "<r><b>x</b></r>"),
    ("least children round it", "<!ELEMENT r (b,a,c)><!ELEMENT b (c)>" + TEXT + C,
     "<!ELEMENT r (b,a,c)><!ELEMENT b (c)>" + A + C, "r", 9, 5, "a text", "<r><b><c/></b><a>x</a><c/></r>"),
    ("names that need not come are left out", "<!ELEMENT r (b*,a,c*)>" + TEXT + B + C, "<!ELEMENT r (b*,a,c*)>" + ABC,
     "r", 9, 2, "a text", "<r><a>x</a></r>"),
    ("a step that accepts is no end", "<!ELEMENT r (b?,a?)>" + TEXT + B, "<!ELEMENT r (b?,a?)>" + ABC, "r", 9, 2,
     "a text", "<r><a>x</a></r>"),
    ("the first of two ways as small", "<!ELEMENT r ((a,c)|b)><!ELEMENT b (d)><!ELEMENT d (#PCDATA)>" + TEXT + C,
     "<!ELEMENT r ((a,c)|b)><!ELEMENT b (d)><!ELEMENT d EMPTY>" + A + C, "r", 9, 3, "a text", "<r><a>x</a><c/></r>"),
    ("the first of two ways as small, the other way round",
     "<!ELEMENT r (b|(a,c))><!ELEMENT b (d)><!ELEMENT d (#PCDATA)>" + TEXT + C,
     "<!ELEMENT r (b|(a,c))><!ELEMENT b (d)><!ELEMENT d EMPTY>" + A + C, "r", 9, 3, "d text", "<r><b><d>x</d></b></r>"),
    ("an element in itself", "<!ELEMENT r (r?,a?)>" + TEXT, "<!ELEMENT r (r?,a?)>" + A, "r", 9, 2, "a text",
     "<r><a>x</a></r>"),
    ("a child that separates by its own names", f"<!ELEMENT r (b)><!ELEMENT b (a,c?)>{A}{C}",
     f"<!ELEMENT r (b)><!ELEMENT b (a)>{A}{C}", "r", 9, 4, "b content", "<r><b><a/><c/></b></r>"),
]

TIES = [
    ("odd before refused names", f"<!ELEMENT r (a|b)><!ATTLIST r k CDATA #IMPLIED>{ABC}", f"<!ELEMENT r (a)>{ABC}", "r",
     9, 2, "r attribute k", '<r k=""><a/></r>'),
    ("odd before a child", f"<!ELEMENT r (a)><!ATTLIST r k CDATA #IMPLIED>{TEXT}", BELOW, "r", 9, 2, "r attribute k",
     '<r k=""><a/></r>'),
    ("refused names before a child", f"<!ELEMENT r (a|b)>{TEXT}{B}", f"<!ELEMENT r (b)>{ABC}", "r", 9, 2, "r content",
     "<r><a/></r>"),
    ("a child is smaller than refused names", f"<!ELEMENT r (a|(b,b))>{TEXT}{B}", f"<!ELEMENT r (a)>{ABC}", "r", 9, 2,
     "a text", "<r><a>x</a></r>"),
    ("refused names are smaller than a child",
     f"<!ELEMENT r (b|d)><!ELEMENT d (a,c)>{TEXT}{B}{C}", f"<!ELEMENT r (d)><!ELEMENT d (a,c)>{ABC}", "r", 9, 2,
     "r content", "<r><b/></r>"),
]

MIXED = [
    ("ANY against some names", "<!ELEMENT r ANY>" + ABC, "<!ELEMENT r (#PCDATA|r|a)*>" + ABC, "r", 5, 2, "r content",
     "<r><b/></r>"),
    ("ANY in order of declaration", f"{B}<!ELEMENT r ANY>{A}", f"{B}<!ELEMENT r (#PCDATA)>{A}", "r", 5, 2, "r content",
     "<r><b/></r>"),
    ("ANY against ANY, a child", "<!ELEMENT r ANY>" + TEXT, "<!ELEMENT r ANY>" + A, "r", 5, 2, "a text",
     "<r><a>x</a></r>"),
    ("ANY against ANY, an undeclared child", "<!ELEMENT r ANY>" + A, "<!ELEMENT r ANY>", "r", 5, 2, "a undeclared",
     "<r><a/></r>"),
    ("mixed names in the order in which they are listed", "<!ELEMENT r (#PCDATA|c|b|a)*>" + ABC,
     "<!ELEMENT r (#PCDATA|a)*>" + ABC, "r", 5, 2, "r content", "<r><c/></r>"),
    ("mixed against children of its names", "<!ELEMENT r (#PCDATA|a)*>" + A, "<!ELEMENT r (a*)>" + A, "r", 5, 1,
     "r text", "<r>x</r>"),
    ("mixed against ANY, a child", "<!ELEMENT r (#PCDATA|b|a)*>" + TEXT + B, "<!ELEMENT r ANY>" + ABC, "r", 5, 2,
     "a text", "<r><a>x</a></r>"),
    ("children against mixed", "<!ELEMENT r (a,b)>" + ABC, "<!ELEMENT r (#PCDATA|a)*>" + ABC, "r", 5, 3, "r content",
     "<r><a/><b/></r>"),
    ("children against ANY, an undeclared child", BELOW, "<!ELEMENT r ANY>", "r", 5, 2, "a undeclared", "<r><a/></r>"),
]

ONE_MORE = "<!ELEMENT r (p,p,p?)>" + P
TWO = "<!ELEMENT r (p,p)>" + P
FAR = B + "<!ELEMENT z (b)><!ELEMENT r (a?,z?)>" + A
NEAR = "<!ELEMENT z (b?)><!ELEMENT r (z?)>" + A

BROKEN = [
    ("two broken elements", "<!ELEMENT r (a,b)>" + ABC, "<!ELEMENT r (a,b)>", "r", 9, 3, "a undeclared",
     "<r><a/><b/></r>"),
    ("two broken elements, the upper one", "<!ELEMENT r (a|b)>" + ABC, "<!ELEMENT r (a)>" + A, "r", 9, 2, "r content",
     "<r><b/></r>"),
    ("two broken elements, one in the other", BELOW, "", "r", 9, 2, "r undeclared", "<r><a/></r>"),
    ("two causes of one element", f"<!ELEMENT r (a)><!ATTLIST r k CDATA #REQUIRED>{A}", "<!ELEMENT r EMPTY>", "r", 9, 2,
     "r content", '<r k=""> <a/></r>'),
    ("within the cap it is that of the article", FAR, NEAR, "r", 2, 2, "r content", "<r><a/></r>"),
]

# Name, the first set, the second set, the root, the cap, the broken line.
ABOVE = [
    ("above the cap it is the first in order of declaration", FAR, NEAR, "r", 1, "b undeclared"),
    ("above the cap, a useless element does not count", f"<!ELEMENT x (#PCDATA)>{ONE_MORE}", f"<!ELEMENT x EMPTY>{TWO}",
     "r", 3, "r content"),
    ("above the cap, an element far down", f"<!ELEMENT a (b?)>{B}<!ELEMENT r (a,a,a)>",
     "<!ELEMENT a (b?)><!ELEMENT r (a,a,a)>", "r", 4, "b undeclared"),
    ("a chain of doublings", with_last(doublings(20), "(#PCDATA)"), doublings(20), "e0", 1000, "e20 text"),
    ("a chain of doublings at the highest cap", with_last(doublings(20), "(#PCDATA)"), doublings(20), "e0", 100000,
     "e20 text"),
]

# Name, the first set, the second set, the root, the cap, some or none.
WITHIN = [
    ("covered: a list of one by a fixed token", has("k (x) #IMPLIED"), has("k NMTOKEN #FIXED 'x'"), "a", 5, "some"),
    ("covered: a fixed text by a fixed token", has("k CDATA #FIXED 'v'"), has("k NMTOKEN #FIXED 'v'"), "a", 5, "some"),
    ("no text against all", "<!ELEMENT r EMPTY>", "<!ELEMENT r (#PCDATA)>", "r", 100000, "some"),
    ("mixed against ANY", "<!ELEMENT r (#PCDATA|a)*>" + A, "<!ELEMENT r ANY>" + A, "r", 100000, "some"),
    ("no document, undeclared, at the highest cap", "<!ELEMENT a (a)>", "", "a", 100000, "none"),
    ("a root whose child is undeclared in the first", "<!ELEMENT r (q)>", "<!ELEMENT r EMPTY>", "r", 5, "none"),
    ("a chain of doublings against itself", doublings(20), doublings(20), "e0", 5, "some"),
]


def sets(first, second):
    return {"m.dtd": first, "n.dtd": second}


def words(root, cap):
    return f"compare - m.dtd - n.dtd {root} {cap}"


def validated(name, first, second, root, article):
    """The article is valid in the first set and not in the second."""
    files = {**sets(first, second), "a.xml": article}
    return [Row(name + ", in the first", files, f"validate - m.dtd {root} a.xml", 0, "valid\n"),
            Begun(name + ", in the second", files, f"validate - n.dtd {root} a.xml", 1, "invalid ")]


def apart(name, first, second, root, cap, size, line, article):
    head = f"not subset\nleast {size}\nbroken {line}\n"
    row = Certified(name, sets(first, second), words(root, cap), 1, head, f"certified at least {size}",
                    f"article\n{article}\n")
    return [row, *validated(name, first, second, root, article)]


def above(name, first, second, root, cap, line):
    head = f"not subset\nabove {cap}\nbroken {line}\n"
    return Certified(name, sets(first, second), words(root, cap), 1, head, f"certified at least {cap + 1}")


def within(name, first, second, root, cap, documents):
    return Certified(name, sets(first, second), words(root, cap), 0, f"subset\ndocuments {documents}\n",
                     "certified subset")


SECOND_PLACE = "a child in the second place, to the byte"

# Name, the first set, the second set, the root, the cap, the status, the output, the claim.
EXACT = [
    ("an element against itself", A, A, "a", 0, 0, """subset
documents some
certificate 1 a 0
element a 1 inf
state 0 0 inf
pair 0 0 inf
end
""", "certified subset"),
    *((f"a choice in another order, {way}", first, second, "r", 5, 0, """subset
documents some
certificate 1 r 5
element r 1 inf
state 0 0 inf
state 1 0 inf
state 2 0 inf
pair 0 0 inf
pair 1 2 inf
pair 2 1 inf
element a 1 inf
state 0 0 inf
pair 0 0 inf
element b 1 inf
state 0 0 inf
pair 0 0 inf
end
""", "certified subset") for way, first, second in (
        ("one way", f"<!ELEMENT r (a|b)*>{A}{B}", f"{A}{B}<!ELEMENT r (b|a)*>"),
        ("the other way", f"<!ELEMENT r (b|a)*>{A}{B}", f"{A}{B}<!ELEMENT r (a|b)*>"))),
    ("a run of white space", "<!ELEMENT e (b?)>", "<!ELEMENT e EMPTY>", "e", 5, 1, """not subset
least 1
broken e text
certificate 1 e 5
element e 1 1
state 0 0 inf
state 1 0 inf
pair 0 0 inf
end
article
<e> </e>
""", "certified at least 1"),
    ("a fixed token against a fixed text", "<!ELEMENT e EMPTY><!ATTLIST e a NMTOKEN #FIXED 'v'>",
     "<!ELEMENT e EMPTY><!ATTLIST e a CDATA #FIXED 'v'>", "e", 5, 1, """not subset
least 1
broken e attribute a
certificate 1 e 5
element e 1 1
state 0 0 inf
pair 0 0 inf
end
article
<e a=" v"/>
""", "certified at least 1"),
    ("a fixed text against a fixed token", "<!ELEMENT e EMPTY><!ATTLIST e a CDATA #FIXED 'v'>",
     "<!ELEMENT e EMPTY><!ATTLIST e a NMTOKEN #FIXED 'v'>", "e", 5, 0, """subset
documents some
certificate 1 e 5
element e 1 inf
state 0 0 inf
pair 0 0 inf
end
""", "certified subset"),
    *((f"six of at most five, at {cap}", "<!ELEMENT r (p+)><!ELEMENT p EMPTY>",
       "<!ELEMENT r (p,(p,(p,(p,p?)?)?)?)><!ELEMENT p EMPTY>", "r", cap, 1, f"""not subset
{found}
broken r content
certificate 1 r {cap}
element r 2 7
state 0 1 inf
state 1 0 inf
pair 0 0 6
pair 1 1 5
pair 1 2 4
pair 1 3 3
pair 1 4 2
pair 1 5 1
element p 1 inf
state 0 0 inf
pair 0 0 inf
end
{tail}""", "certified at least 7") for cap, found, tail in (
        (7, "least 7", "article\n<r><p/><p/><p/><p/><p/><p/></r>\n"), (6, "above 6", ""))),
    ("no document", "<!ELEMENT a (a)>", "<!ELEMENT a (a)>", "a", 0, 0, """subset
documents none
certificate 1 a 0
element a inf inf
state 0 inf inf
state 1 0 inf
pair 0 0 inf
end
""", "certified subset"),
    ("no document, and undeclared", "<!ELEMENT a (a)>", "", "a", 3, 0, """subset
documents none
certificate 1 a 3
element a inf inf
state 0 inf inf
state 1 0 inf
end
""", "certified subset"),
    ("a pair that only a name without documents reaches", f"<!ELEMENT r (x|a)><!ELEMENT x (x)>{A}",
     f"<!ELEMENT r (x|a)><!ELEMENT x (x)>{A}", "r", 3, 0, """subset
documents some
certificate 1 r 3
element r 2 inf
state 0 1 inf
state 1 0 inf
state 2 0 inf
pair 0 0 inf
pair 2 2 inf
element x inf inf
state 0 inf inf
state 1 0 inf
pair 0 0 inf
element a 1 inf
state 0 0 inf
pair 0 0 inf
end
""", "certified subset"),
    (SECOND_PLACE, f"<!ELEMENT r (a,b)>{A}<!ELEMENT b (#PCDATA)>", f"<!ELEMENT r (a,b)>{A}{B}", "r", 3, 1, """not subset
least 3
broken b text
certificate 1 r 3
element r 3 3
state 0 2 2
state 1 1 1
state 2 0 inf
pair 0 0 inf
pair 1 1 inf
pair 2 2 inf
element a 1 inf
state 0 0 inf
pair 0 0 inf
element b 1 1
state 0 0 inf
pair 0 0 inf
end
article
<r><a/><b>x</b></r>
""", "certified at least 3"),
]


def exact(name, first, second, root, cap, status, output, claim):
    row = Row(name, sets(first, second), words(root, cap), status, output)
    return [row, verified(row, output, claim)]


def capped(cap):
    """Three elements against two at most: the smallest separating article has four elements."""
    def cut(cost):
        return min(cost, cap + 1)

    certificate = f"""certificate 1 r {cap}
element r {cut(3)} {cut(4)}
state 0 {cut(2)} inf
state 1 1 inf
state 2 0 inf
state 3 0 inf
pair 0 0 {cut(3)}
pair 1 1 {cut(2)}
pair 2 2 1
element p 1 inf
state 0 0 inf
pair 0 0 inf
end
"""
    found = "least 4" if cap >= 4 else f"above {cap}"
    tail = "article\n<r><p/><p/><p/></r>\n" if cap >= 4 else ""
    output = f"not subset\n{found}\nbroken r content\n{certificate}{tail}"
    return exact(f"the cap {cap} where the least number is 4", ONE_MORE, TWO, "r", cap, 1, output,
                 f"certified at least {cut(4)}")


def changed(name, old, new, status, output):
    """The certificate of a child in the second place, with one number changed, verified."""
    first, second, certificate = next((row[1], row[2], row[6]) for row in EXACT if row[0] == SECOND_PLACE)
    assert certificate.count(old) == 1
    files = {**sets(first, second), "c.txt": certificate.replace(old, new)}
    return Row(name, files, "verify c.txt - m.dtd - n.dtd", status, output + "\n")


def changes():
    return [
        changed("one number less", "element r 3 3", "element r 3 2", 0, "certified at least 2"),
        changed("one cost less", "state 1 1 1", "state 1 1 0", 1, "not certified 4 r 0 a 2 1"),
        changed("kind 3", "state 1 1 1", "state 1 1 2", 1, "not certified 3 r 1 b 2 1"),
        changed("kind 4", "state 0 2 2", "state 0 2 3", 1, "not certified 4 r 0 a 3 2"),
        changed("kind 9", "element r 3 3", "element r 3 4", 1, "not certified 9 r 4 3"),
        changed("kind 11", "element b 1 1", "element b 1 2", 1, "not certified 11 b 2 1"),
    ]


def nested(names, innermost):
    return "".join(f"<{name}>" for name in names) + innermost + "".join(f"</{name}>" for name in reversed(names))


def chains():
    names = [f"c{k}" for k in range(40)]
    # Each element of the chain separates, down to the last one; under that stands the whole chain once more, now least.
    article = nested([f"c{k}" for k in range(1024)] * 2, "").replace("<c1023></c1023>", "<c1023/>")
    return [
        *apart("a chain of 40", with_last(chain(40), "(#PCDATA)"), chain(40), "c0", 40, 40, "c39 text",
               nested(names, "x")),
        above("a chain of 40, the cap one under", with_last(chain(40), "(#PCDATA)"), chain(40), "c0", 39, "c39 text"),
        *apart("2,048 open elements", with_last(chain(1024), "(c0?)"), with_last(chain(1024), "(z?)"), "c0", 100000,
               2048, "c1023 content", article),
    ]


def rows():
    out = [row for group in (ODD, NAMES, INSIDE, TIES, MIXED, BROKEN) for each in group for row in apart(*each)]
    out += [above(*each) for each in ABOVE] + [within(*each) for each in WITHIN]
    out += [row for each in EXACT for row in exact(*each)]
    out += [row for cap in (0, 1, 3, 4, 5, 100000) for row in capped(cap)]
    return [row._replace(name="separating: " + row.name) for row in out + changes() + chains()]


def many_pairs():
    """1,023 names under a star against 1,024."""
    lines = ["not subset", "least 1024", "broken x content", "certificate 1 x 2000",
             "element p 1 inf", "state 0 0 inf", "pair 0 0 inf", "element x 1 1024", "state 0 0 inf"]
    lines += [f"state {i} {1023 - i} inf" for i in range(1, 1024)]
    lines.append("pair 0 0 1023")
    for i in range(1, 1024):
        # 1,023 - i more names end the first; they end the second too where it stands one place further on.
        lines += [f"pair {i} {j} {min(2046 - i, 2001) if j == i + 1 else 1023 - i}" for j in range(1, 1025)]
    return "\n".join([*lines, "end", "article", "<x>" + "<p/>" * 1023 + "</x>", ""])


def slow_rows():
    first, second = (P + "<!ELEMENT x (" + ",".join(["p"] * names) + ")*>" for names in (1023, 1024))
    row = Row("separating: 1,047,553 pairs", sets(first, second), words("x", 2000), 1, many_pairs)
    return [row, verified(row, many_pairs, "certified at least 1024")]
