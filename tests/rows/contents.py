"""Elements: names that come twice, contents that are not deterministic, contents that are."""

from .form import beside, each, stands

# Name, a refused module, the refusal, a module that is accepted, its counts.
PAIRS = [
    ("an element twice", "<!ELEMENT a EMPTY>¶<!ELEMENT a EMPTY>", "E30 DuplicateElement @ a",
     "<!ELEMENT a EMPTY><!ELEMENT A EMPTY>", (2,)),
    ("an element twice with another content", "<!ELEMENT a EMPTY>\n<!ELEMENT b (a)>\n¶<!ELEMENT a (b)>",
     "E30 DuplicateElement @ a", "<!ELEMENT a EMPTY>\n<!ELEMENT b (a)>\n", (2,)),
    ("an element twice in one entity", '<!ENTITY % x "<!ELEMENT a EMPTY>">%x;¶%x;', "E30 DuplicateElement @ a",
     '<!ENTITY % x "<!ELEMENT a EMPTY>">%x;', (1,)),
    ("a mixed name twice", "¶<!ELEMENT a (#PCDATA|b|b)*>", "E31 DuplicateMixedName @ a b",
     "<!ELEMENT a (#PCDATA|b|a)*>", (1,)),
    ("the first mixed name that is there already", "¶<!ELEMENT a (#PCDATA|b|c|d|c|b)*>",
     "E31 DuplicateMixedName @ a c", "<!ELEMENT a (#PCDATA|b|c|d)*>", (1,)),
    ("the same two first names of a choice", "¶<!ELEMENT r ((a,b)|(a,c))>", "E32 Ambiguous @ r 1 3",
     "<!ELEMENT r (a,(b|c))>", (1,)),
    ("an optional name before itself", "¶<!ELEMENT r (a?,a)>", "E32 Ambiguous @ r 1 2", "<!ELEMENT r (a,a?)>", (1,)),
    ("a repeated name before itself", "¶<!ELEMENT r (a*,a)>", "E32 Ambiguous @ r 1 2", "<!ELEMENT r (a,a*)>", (1,)),
    ("a name repeated at least once before itself", "¶<!ELEMENT r (a+,a)>", "E32 Ambiguous @ r 1 2",
     "<!ELEMENT r (a,a+)>", (1,)),
    ("a name twice in a choice", "¶<!ELEMENT r (a|a)>", "E32 Ambiguous @ r 1 2", "<!ELEMENT r (a|b)>", (1,)),
    ("a repeated choice before one of its names", "¶<!ELEMENT r ((a|b)*,a)>", "E32 Ambiguous @ r 1 3",
     "<!ELEMENT r ((a|b)*,c)>", (1,)),
    ("an optional name in the middle before itself", "¶<!ELEMENT r (a,b?,b)>", "E32 Ambiguous @ r 2 3",
     "<!ELEMENT r (a,b?,c)>", (1,)),
    ("the least position that shares its name", "¶<!ELEMENT r (x,(b|a|b|a))>", "E32 Ambiguous @ r 2 4",
     "<!ELEMENT r (x,(b|a|c|d))>", (1,)),
    ("the least of the others that share its name", "¶<!ELEMENT r (a|b|b|a|a)>", "E32 Ambiguous @ r 1 4",
     "<!ELEMENT r (a|b)>", (1,)),
    ("the least state before the least position", "¶<!ELEMENT r ((a,b?,b)|(c,(d|d)))>", "E32 Ambiguous @ r 2 3",
     "<!ELEMENT r ((a,b?)|(c,d))>", (1,)),
    ("the start comes before the other states", "¶<!ELEMENT r ((a,b?,b)|(c,d)|c)>", "E32 Ambiguous @ r 4 6",
     "<!ELEMENT r ((a,b?)|(c,d?))>", (1,)),
    ("a group that repeats and may end in its first name", "¶<!ELEMENT r (a,(b,a?)*,a)>",
     "E32 Ambiguous @ r 3 4", "<!ELEMENT r (a,(b,a?)*)>", (1,)),
    ("a group that repeats as a whole", "¶<!ELEMENT r (a,b?,(c?))+,a>", "E20 Malformed @",
     "<!ELEMENT r (a,b?,(c?))+>", (1,)),
    ("a group of optional parts under a star", "¶<!ELEMENT r (a?,b?,a)*>", "E32 Ambiguous @ r 1 3",
     "<!ELEMENT r (a?,b?)*>", (1,)),
    ("a repeated group whose last name is its first", "¶<!ELEMENT r (a,b,a?)+>", "E32 Ambiguous @ r 1 3",
     "<!ELEMENT r (a,b)+>", (1,)),
    ("signs on signs", "¶<!ELEMENT r ((a?)+,(a*)?)>", "E32 Ambiguous @ r 1 2", "<!ELEMENT r (((a?)+)*)>", (1,)),
]

# Contents that are accepted and stand as they are written.
MODELS = [
    "EMPTY", "ANY", "(#PCDATA)", "(#PCDATA|b)*", "(#PCDATA|b|c)*", "(b)", "(b?)", "(b*)", "(b+)", "(b)?", "(b)*",
    "(b)+", "((b))", "(b,c)", "(b|c)", "(b?,c*,d+)", "((b,c)|d)?", "((b|c)*,d)+", "(b,(c|(d,e?)*)+)",
    "(b,c,b,c)", "(b,(b|c)*)", "((b,(c,(d|e)))*)", "(x:y,_,a.b-c·1)", "(EMPTY,ANY,CDATA)", "(b,(c,b)*)",
]


def model(text):
    return stands(f"the content {text}", f"<!ELEMENT r {text}>\n", 1)


def rows():
    return each(lambda *pair: beside("content", *pair), PAIRS) + [row for text in MODELS for row in model(text)]
