"""Where several faults stand in one declaration: which is named."""

from .form import each, refused_both

DEEP = "(" * 65
MANY = "|".join(f"n{k}" for k in range(1, 1026))
FULL = "".join(f"<!ELEMENT e{k} EMPTY>" for k in range(1, 1025))

ORDER = [
    ("a fault of expansion comes before too many parentheses", f"¶<!ELEMENT a {DEEP}%u;>", "E21 UndeclaredPe @ u"),
    ("too many parentheses come before a malformed body", f"¶<!ELEMENT a {DEEP}>", "E44 GroupTooDeep @"),
    ("parentheses count before the name too", f"¶<!ELEMENT {DEEP}>", "E44 GroupTooDeep @"),
    ("parentheses count in quotes too", f'¶<!ELEMENT a "{DEEP}">', "E44 GroupTooDeep @"),
    ("an end with nothing open closes nothing", f"¶<!ELEMENT a ){DEEP}>", "E44 GroupTooDeep @"),
    ("parentheses that are closed again do not count", "¶<!ELEMENT a " + "()" * 65 + ">", "E20 Malformed @"),
    ("parentheses do not count in lists", f'¶<!ATTLIST a k {DEEP}>', "E20 Malformed @"),
    ("a malformed body comes before too many names", f"¶<!ELEMENT a ({MANY}|)>", "E20 Malformed @"),
    ("too many names come before a name twice", f"¶<!ELEMENT a (#PCDATA|n1|{MANY})*>", "E42 PositionsOver @ a"),
    ("too many names come before an element twice", f"<!ELEMENT a EMPTY>¶<!ELEMENT a ({MANY})>",
     "E42 PositionsOver @ a"),
    ("too many names come before two that compete", f"¶<!ELEMENT a (n1|{MANY})>", "E42 PositionsOver @ a"),
    ("a mixed name twice comes before an element twice", "<!ELEMENT a EMPTY>¶<!ELEMENT a (#PCDATA|b|b)*>",
     "E31 DuplicateMixedName @ a b"),
    ("an element twice comes before names that compete", "<!ELEMENT a EMPTY>¶<!ELEMENT a (b|b)>",
     "E30 DuplicateElement @ a"),
    ("an element twice comes before too many elements", FULL + "¶<!ELEMENT e1 EMPTY>", "E30 DuplicateElement @ e1"),
    ("too many elements come before names that compete", FULL + "¶<!ELEMENT f (b|b)>", "E41 ElementsOver @ f"),
    ("a mixed name twice comes before too many elements", FULL + "¶<!ELEMENT f (#PCDATA|b|b)*>",
     "E31 DuplicateMixedName @ f b"),
    ("a malformed list comes before its values", '¶<!ATTLIST a k CDATA "&u;" l>', "E20 Malformed @"),
    ("an entity that is not declared comes before a token twice", '¶<!ATTLIST a k (x|x) "&u;">',
     "E26 EntityUndeclared @ u"),
    ("a start of a tag comes before a token twice", '¶<!ATTLIST a k (x|x) "<">', "E27 LessThanInValue @ k"),
    ("a token twice comes before a value that is no token", '¶<!ATTLIST a k (x|x) "z">', "E38 DuplicateToken @ a k x"),
    ("a value of an identifier comes before its form", '¶<!ATTLIST a i ID "1">', "E33 IdPreset @ a i"),
    ("a value of an identifier comes before a second identifier",
     '¶<!ATTLIST a i ID #IMPLIED j ID "x">', "E33 IdPreset @ a j"),
    ("a value that is no notation comes before a second attribute of notations",
     '¶<!ATTLIST a n NOTATION (x) #IMPLIED m NOTATION (x) "z">', "E39 PresetNotInClass @ a m"),
    ("a token twice comes before a second attribute of notations",
     "¶<!ATTLIST a n NOTATION (x) #IMPLIED m NOTATION (y|y) #IMPLIED>", "E38 DuplicateToken @ a m y"),
    ("the first definition with a fault", '¶<!ATTLIST a k (x|y) "z" l ID "x">', "E39 PresetNotInClass @ a k"),
    ("a definition that is there already has no faults of its own",
     '¶<!ATTLIST a k CDATA "" k (x|x) "z" l (x|x) "&lt;">', "E38 DuplicateToken @ a l x"),
    ("a declaration that does not end comes before its expansion", "¶<!ENTITY x %u;", "E20 Malformed @"),
    ("a fault of expansion comes before a malformed definition", "¶<!ENTITY x y %u;>", "E21 UndeclaredPe @ u"),
    ("a malformed value comes before its entities", '¶<!ENTITY x "%u;&">', "E20 Malformed @"),
    ("a malformed end comes before the entities of a value", '¶<!ENTITY x "%u;" y>', "E20 Malformed @"),
    ("a malformed notation comes before one that is there",
     "<!NOTATION n SYSTEM ''>¶<!NOTATION n SYSTEM>", "E20 Malformed @"),
    ("a fault of the last item comes before those at the end",
     "<!ENTITY e SYSTEM 'x' NDATA n>¶x", "E20 Malformed @"),
    ("an entity that is not declared is no open one", '<!ENTITY % a "&#37;b;">¶%a;', "E21 UndeclaredPe @ b"),
    ("the earlier of two references in a body", "¶<!ELEMENT a (%u;|%v;)>", "E21 UndeclaredPe @ u"),
    ("a reference that does not end after one that is not declared", "¶<!ELEMENT a (%u;|%v)>", "E21 UndeclaredPe @ u"),
    ("a fault of nesting in the first of two entities",
     '<!ENTITY % x ">">¶<!ELEMENT a (%x;|%v;)>', "E23 PeNesting @ x"),
]


def rows():
    return each(lambda name, *rest: refused_both("order: " + name, *rest), ORDER)
