"""Validity of articles: each cause alone, all together, and their order; what is filled."""

from .articles import LIST
from .form import Row, each

WORDS = "validate - m.dtd r a.xml"
FILL = "fill - m.dtd a.xml"


def judged(name, dtd, article, *faults, root="r"):
    """What is wrong in an article, without the word `invalid`; nothing where it is valid."""
    output = "".join(f"invalid {fault}\n" for fault in faults) or "valid\n"
    return Row("validity: " + name, {"m.dtd": dtd, "a.xml": article}, f"validate - m.dtd {root} a.xml", 1 if faults else 0, output)


def filled(name, dtd, article, written):
    return Row("filled: " + name, {"m.dtd": dtd, "a.xml": article}, FILL, 0, written + "\n")


WHITE = LIST + '<!ENTITY w "&#32;"><!ENTITY c "&#38;#32;"><!ENTITY nul "">'

# contents and other items
STRUCTURE = [
    ("the set of an example", LIST, '<r><s i="p"/><s i="p" k="y"/><s j="q"/></r>', "3 s id i p", "4 s idref j q"),
    ("another root", LIST, "<s/>", "1 s root"),
    ("a root that is undeclared", LIST, "<q/>", "1 q root", "1 q undeclared"),
    ("an element that is undeclared", LIST, "<r><q/></r>", "1 r content", "2 q undeclared"),
    ("nothing else is told of an undeclared element", LIST, '<r><q i="1" u="">text<s/></q></r>', "1 r content", "2 q undeclared"),
    ("what is in an undeclared element is told", LIST, "<r><q><s>x</s></q></r>", "1 r content", "2 q undeclared", "3 s text"),
    ("an identifier of an undeclared element is none", LIST + "<!ATTLIST q i ID #IMPLIED>", '<r><q i="p"/><s j="p"/></r>',
     "1 r content", "2 q undeclared", "3 s idref j p"),
    ("an element after the prolog", LIST, '<?xml version="1.0"?><!DOCTYPE r SYSTEM "m.dtd"><r/>'),
    ("the name of a document type is not compared", LIST, "<!DOCTYPE q><r/>"),
    ("white space between elements", LIST, "<r> <s/>\n</r>"),
    ("white space from an entity", WHITE, "<r>&w;<s/></r>"),
    ("white space from a reference in an entity", WHITE, "<r>&c;<s/></r>", "1 r text"),
    ("white space in a section", LIST, "<r><![CDATA[ ]]></r>", "1 r text"),
    ("white space from a reference", LIST, "<r>&#32;<s/></r>", "1 r text"),
    ("a section without characters", LIST, "<r><![CDATA[]]></r>", "1 r text"),
    ("text between elements", LIST, "<r>x<s/></r>", "1 r text"),
    ("comments and instructions between elements", LIST, "<r><!--x--><?p?><s/></r>"),
    ("a comment in an empty element", LIST, "<r><s><!--x--></s></r>", "2 s text"),
    ("an instruction in an empty element", LIST, "<r><s><?p?></s></r>", "2 s text"),
    ("white space in an empty element", LIST, "<r><s> </s></r>", "2 s text"),
    ("an entity without characters in an empty element", WHITE, "<r><s>&nul;</s></r>", "2 s text"),
    ("an empty element with an end tag", LIST, "<r><s></s></r>"),
    ("an element in an empty one", LIST, "<r><s><s/></s></r>", "2 s content"),
    ("content and text", LIST, "<r>x<r/></r>", "1 r content", "1 r text"),
    ("the order of children", "<!ELEMENT r (a,b)><!ELEMENT a EMPTY><!ELEMENT b EMPTY>", "<r><b/><a/></r>", "1 r content"),
    ("too few children", "<!ELEMENT r (a,b)><!ELEMENT a EMPTY><!ELEMENT b EMPTY>", "<r><a/></r>", "1 r content"),
    ("a model that is met", "<!ELEMENT r (a,b?,a+)><!ELEMENT a EMPTY><!ELEMENT b EMPTY>", "<r><a/><a/><a/></r>"),
    ("any content", "<!ELEMENT r ANY><!ELEMENT a EMPTY>", "<r>x<r/><a/><!--y--></r>"),
    ("an undeclared element in any content", "<!ELEMENT r ANY>", "<r><q/></r>", "2 q undeclared"),
    ("mixed content", "<!ELEMENT r (#PCDATA|a)*><!ELEMENT a EMPTY>", "<r>x<a/>&#32;<![CDATA[y]]></r>"),
    ("an element that mixed content does not list", "<!ELEMENT r (#PCDATA|a)*><!ELEMENT a EMPTY>", "<r>x<r/></r>", "1 r content"),
    ("text alone", "<!ELEMENT r (#PCDATA)>", "<r>x</r>"),
    ("an empty mixed content", "<!ELEMENT r (#PCDATA)>", "<r/>"),
    ("names are compared letter by letter", LIST, "<r><S/></r>", "1 r content", "2 S undeclared"),
]

ALL_TYPES = ('<!NOTATION n SYSTEM "n"><!NOTATION m SYSTEM "m"><!ENTITY u SYSTEM "u" NDATA n><!ENTITY i "x"><!ENTITY x SYSTEM "x">'
             '<!ELEMENT r (e*)><!ELEMENT e ANY><!ATTLIST e cd CDATA #IMPLIED id ID #IMPLIED rf IDREF #IMPLIED rs IDREFS #IMPLIED '
             'en ENTITY #IMPLIED es ENTITIES #IMPLIED nm NMTOKEN #IMPLIED ns NMTOKENS #IMPLIED no NOTATION (n|m) #IMPLIED '
             'em (x|y) #IMPLIED fx CDATA #FIXED "a b" ft NMTOKENS #FIXED "a b">')

# one attribute of e each, with its value
ATTRIBUTES = [
    ("cd", " any &lt; é"), ("id", "a:b-1"), ("id", " a "), ("nm", "-1"), ("nm", " x "), ("ns", "a 1  -"), ("no", "m"),
    ("no", " n "), ("em", "y"), ("em", " x\n"), ("en", "u"), ("en", " u "), ("es", "u  u"), ("fx", "a b"), ("ft", " a  b "),
    ("xu", "", "attribute xu"), ("ID", "a", "attribute ID"), ("id", "1", "value id"), ("id", "", "value id"),
    ("id", "a b", "value id"), ("rf", "a b", "value rf"), ("rf", "1", "value rf"), ("rs", "", "value rs"),
    ("rs", "a 1", "value rs"), ("en", "1", "value en"), ("en", "u u", "value en"), ("es", " ", "value es"),
    ("nm", "a b", "value nm"), ("nm", "", "value nm"), ("ns", "", "value ns"), ("ns", "a/b", "value ns"),
    ("no", "k", "value no"), ("no", "n m", "value no"), ("em", "X", "value em"), ("em", "x y", "value em"),
    ("fx", "a  b", "value fx"), ("fx", "a", "value fx"), ("fx", " a b", "value fx"), ("ft", "b a", "value ft"),
    ("nm", "a&#9;", "value nm"), ("ns", "a&#10;b", "value ns"), ("em", "&#32;x"),
    ("rf", "a", "idref rf a"), ("rs", "a b a", "idref rs a", "idref rs b", "idref rs a"), ("rf", " a ", "idref rf a"),
    ("en", "i", "entity en i"), ("en", "x", "entity en x"), ("en", "z", "entity en z"),
    ("es", "u i z", "entity es i", "entity es z"),
]

MANY = ('<!NOTATION n SYSTEM "n"><!ENTITY u SYSTEM "u" NDATA n><!ELEMENT r (e*)><!ELEMENT e (e)>'
        '<!ATTLIST e m CDATA #REQUIRED v (x|y) #IMPLIED i ID #IMPLIED j IDREFS #IMPLIED k ENTITIES #IMPLIED '
        'o CDATA #REQUIRED d IDREF "gone" f ENTITY #FIXED "none">')

# links, and defaults
LINKS = [
    ("an identifier twice", LIST, '<r><s i="p"/><s i="p"/><s i="p"/></r>', "3 s id i p", "4 s id i p"),
    ("an identifier with blanks is the same", LIST, '<r><s i="p"/><s i=" p "/></r>', "3 s id i p"),
    ("a reference to a later identifier", LIST, '<r><s j="p"/><s i="p"/></r>'),
    ("a reference to its own element", LIST, '<r><s j="p" i="p"/></r>'),
    ("a value that is no identifier is none", LIST, '<r><s i="1"/><s j="p"/></r>', "2 s value i", "3 s idref j p"),
    ("a value that is no name has no target", LIST, '<r><s j="1"/></r>', "2 s value j"),
    ("identifiers of two attributes are of one kind", LIST + "<!ELEMENT t EMPTY><!ATTLIST t x ID #IMPLIED>",
     '<r><s i="p"/><t x="p"/></r>', "1 r content", "3 t id x p"),
    ("a default reference", '<!ELEMENT r ANY><!ATTLIST r j IDREF "q">', "<r/>", "1 r idref j q"),
    ("a default reference at each element", '<!ELEMENT r ANY><!ATTLIST r j IDREF "q">', '<r><r j="p"/><r/></r>',
     "1 r idref j q", "2 r idref j p", "3 r idref j q"),
    ("a default reference with its identifier", '<!ELEMENT r ANY><!ATTLIST r j IDREF "q" i ID #IMPLIED>', '<r i="q"/>'),
    ("a fixed entity", '<!ELEMENT r ANY><!ATTLIST r e ENTITY #FIXED "u">', "<r/>", "1 r entity e u"),
    ("names of a default in order", '<!ELEMENT r ANY><!ATTLIST r j IDREFS "b a" k IDREF "c">', "<r/>", "1 r idref j b", "1 r idref j a", "1 r idref k c"),
    ("specified links come before defaults", '<!ELEMENT r ANY><!ATTLIST r j IDREF "a" k IDREF #IMPLIED>', '<r k="b"/>', "1 r idref k b", "1 r idref j a"),
    ("a required attribute", "<!ELEMENT r ANY><!ATTLIST r a CDATA #REQUIRED b CDATA #REQUIRED>", "<r/>", "1 r missing a", "1 r missing b"),
    ("nine attributes of ten that are required", "<!ELEMENT r ANY><!ATTLIST r " + " ".join(f"{c} CDATA #REQUIRED" for c in "abcdefghij") + ">",
     "<r " + " ".join(f'{c}=""' for c in "abcdefghi") + "/>", "1 r missing j"),
    ("a required attribute that is there", "<!ELEMENT r ANY><!ATTLIST r a CDATA #REQUIRED b CDATA #REQUIRED>", '<r b=""/>', "1 r missing a"),
    ("all that may be wrong in one element", MANY, '<r><e i="p"/><e i="p" w="" v="z" j="p q" k="u i">t</e></r>',
     "2 e content", "2 e missing m", "2 e missing o", "2 e idref d gone", "2 e entity f none",
     "3 e content", "3 e text", "3 e attribute w", "3 e value v", "3 e missing m", "3 e missing o",
     "3 e id i p", "3 e idref j q", "3 e entity k i", "3 e idref d gone", "3 e entity f none"),
    ("a root with all that may be wrong at it", MANY, '<e v="z">t</e>', "1 e root", "1 e content", "1 e text", "1 e value v", "1 e missing m", "1 e missing o",
     "1 e idref d gone", "1 e entity f none"),
]

FILLED = [
    ("defaults of an example", LIST, '<r><s i="p"/><s i="p" k="y"/><s j="q"/></r>', '<r><s i="p" k="x"/><s i="p" k="y"/><s j="q" k="x"/></r>'),
    ("defaults in order of declaration, behind what is specified", '<!ELEMENT r ANY><!ATTLIST r a CDATA "1" b CDATA #FIXED "2" c CDATA "3">',
     '<r c="4"/>', '<r c="4" a="1" b="2"/>'),
    ("required and implied attributes have no defaults", '<!ELEMENT r ANY><!ATTLIST r a CDATA #REQUIRED b CDATA #IMPLIED c CDATA "">', "<r/>", '<r c=""/>'),
    ("an undeclared element", '<!ELEMENT r ANY><!ATTLIST q a CDATA "1">', "<r><q/></r>", "<r><q/></r>"),
    ("the first definition binds", '<!ELEMENT r ANY><!ATTLIST r a CDATA "1"><!ATTLIST r a CDATA "2">', "<r/>", '<r a="1"/>'),
    ("a default that is collapsed", '<!ELEMENT r ANY><!ATTLIST r a NMTOKENS " x  y ">', "<r/>", '<r a="x y"/>'),
    ("a default that is not", '<!ELEMENT r ANY><!ATTLIST r a CDATA " x  &#9;&lt;">', "<r/>", '<r a=" x  &#9;&lt;"/>'),
    ("a fault is kept", LIST, '<s k="z" u="">x</s>', '<s k="z" u="">x</s>'),
    ("items are kept", LIST + '<!ENTITY t "x">', "<r><!--a--> <?p b?>&t;<![CDATA[<]]><s/></r>", '<r><!--a--> <?p b?>x&lt;<s k="x"/></r>'),
    ("what stands outside of the element is dropped", LIST, "<!--a--><!DOCTYPE r><r/> <?p?>", "<r/>"),
    ("an article that is filled", LIST, '<r><s k="x"/></r>', '<r><s k="x"/></r>'),
    ("elements inside one another", '<!ELEMENT r ANY><!ATTLIST r a CDATA "1">', "<r><r/>x<r><r/></r></r>",
     '<r a="1"><r a="1"/>x<r a="1"><r a="1"/></r></r>'),
]


def attribute(name, value, *faults):
    """An attribute of one element, with what is wrong with it."""
    shown = f"{name}='{value}'"
    return [judged(f"the attribute {shown}", ALL_TYPES, f"<r><e {shown}/></r>", *[f"2 e {fault}" for fault in faults])]


def many_identifiers():
    """A hundred thousand identifiers and references."""
    size = 100000
    names = [f"n{k}" for k in range(size)]
    article = "".join(f'<s i="{name}" j="{other}" k="x"/>' for name, other in zip(names, reversed(names)))
    return [
        judged("a hundred thousand identifiers", LIST, f"<r>{article}</r>"),
        judged("the last of a hundred thousand identifiers again", LIST, f'<r>{article}<s i="n99999" k="x"/></r>', f"{size + 2} s id i n99999"),
    ]


def wide_rows():
    """Much of one kind."""
    attributes = "".join(f' a{k}="{k}"' for k in range(10000))
    children = "<e0/><e199/>" * 5000
    wide = "<!ELEMENT r (#PCDATA|" + "|".join(f"e{k}" for k in range(200)) + ")*>" + "".join(f"<!ELEMENT e{k} EMPTY>" for k in range(200))
    return [
        judged("ten thousand attributes of one element", "<!ELEMENT r EMPTY>", f"<r{attributes}/>", *[f"1 r attribute a{k}" for k in range(10000)]),
        judged("ten thousand children of two hundred names", wide, f"<r>{children}</r>"),
        filled("ten thousand defaults of one element", "<!ELEMENT r EMPTY>" + "<!ATTLIST r" + "".join(f' a{k} CDATA "{k}"' for k in range(10000)) + ">",
               "<r/>", f"<r{attributes}/>"),
    ]


def form_rows():
    """Words of these commands, and what is no form of theirs."""
    files = {"m.dtd": LIST, "a.xml": "<r/>"}
    refused = ["validate", "fill", "validate - m.dtd r", "validate - m.dtd r a.xml x", "fill - m.dtd", "fill - m.dtd a.xml x", "validates - m.dtd r a.xml",
               "fills - m.dtd a.xml", "Validate - m.dtd r a.xml"]
    return [
        *[Row(f"validity: no form: {words}", files, words, 3, "usage\n") for words in refused],
        Row("validity: over a catalog", {**files, "c.txt": ""}, "validate c.txt m.dtd r a.xml", 0, "valid\n"),
        Row("filled: over a catalog", {**files, "c.txt": ""}, "fill c.txt m.dtd a.xml", 0, "<r/>\n"),
        Row("validity: an absent catalog", files, "validate c.txt m.dtd r a.xml", 2, "refused E10 ModuleAbsent c.txt 0\n"),
        judged("a root word that is no name of any element", LIST, "<r/>", "1 r root", root="1"),
        judged("a root word of another element", LIST, "<r/>", "1 r root", root="s"),
    ]


def rows():
    return [
        *each(lambda *row: [judged(*row)], STRUCTURE),
        *each(attribute, ATTRIBUTES),
        *each(lambda *row: [judged(*row)], LINKS),
        *each(lambda *row: [filled(*row)], FILLED),
        *form_rows(),
    ]


def slow_rows():
    """Large articles."""
    return [
        *many_identifiers(),
        *wide_rows(),
    ]
