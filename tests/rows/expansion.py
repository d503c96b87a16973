"""How deep entities may be open, how many characters may be included, and texts made to exhaust a reader."""

from .form import ENTRY, Row, compared, counted, counts, flat, refused

INCLUDED = 67_108_864
PART = INCLUDED // 64
SPENT = f'<!ENTITY % w "{" " * PART}">' + "%w;" * 64


def nested(deep, leaf, sign="&#37;", kind="% "):
    """Entities p1 to pN, of which each is the text of the next; p1 is the leaf."""
    lines = [f'<!ENTITY {kind}p1 "{leaf}">']
    lines += [f'<!ENTITY {kind}p{k} "{sign}p{k - 1};">' for k in range(2, deep + 1)]
    return "".join(lines)


# Name, the leaf, what calls N names, the counts where it is accepted.
CALLS = [
    ("between declarations", "<!ELEMENT a EMPTY>", "%p{n};", (1,)),
    ("in a body", "b", "<!ELEMENT a (%p{n};)>", (1,)),
    ("in an entity value", "x", '<!ENTITY a "%p{n};">', (0, 0, 1)),
    ("in a keyword", "INCLUDE", "<![%p{n};[<!ELEMENT a EMPTY>]]>", (1,)),
]


def parameter_depths():
    out = []
    for name, leaf, call, numbers in CALLS:
        out.append(counted(f"depth: 32 entities open {name}", nested(32, leaf) + call.format(n=32), *numbers))
        out.append(refused(f"depth: 33 entities open {name}", nested(33, leaf) + "¶" + call.format(n=33),
                           "E24 EntityTooDeep @ p1"))
    outer = '<!ENTITY % d "<!ELEMENT a (&#37;p{n};)>">¶%d;'
    out.append(counted("depth: an entity open round a declaration counts in its body",
                       (nested(32, "b") + outer.format(n=31)).replace("¶", ""), 1))
    out.append(refused("depth: an entity too many open round a declaration", nested(32, "b") + outer.format(n=32),
                       "E24 EntityTooDeep @ p1"))
    out.append(refused("depth: the name that is one too many", nested(40, "b") + "¶%p40;", "E24 EntityTooDeep @ p8"))
    out.append(refused("depth: an entity that is open is recursive before it is too deep",
                       nested(32, "&#37;p32;") + "¶%p32;", "E22 RecursivePe @ p32"))
    out.append(refused("depth: an entity that is not declared comes before one that is too deep",
                       nested(32, "&#37;u;") + "¶%p32;", "E21 UndeclaredPe @ u"))
    return out


def general_depths():
    call = '¶<!ATTLIST a k CDATA "&p{n};">'
    chain = nested(33, "x", "&", "")
    open_round = "".join(f'<!ENTITY % q{k} "&#37;q{k - 1};">' for k in range(2, 32))
    inside = nested(32, "x", "&", "") + "<!ENTITY % q1 \"<!ATTLIST a k CDATA '&#38;p32;'>\">" + open_round
    return [
        counted("depth: 32 entities open in a value", (chain + call.format(n=32)).replace("¶", ""), 0, 1, 33),
        refused("depth: 33 entities open in a value", chain + call.format(n=33), "E24 EntityTooDeep @ p1"),
        counted("depth: parameter entities open round a value do not count", inside + "%q31;", 0, 1, 32),
    ]


def module_chain(last):
    """Modules m1 to m32, each of which calls the next; what the last holds."""
    files = {f"m{k}.ent": f'<!ENTITY % p{k + 1} SYSTEM "m{k + 1}.ent">%p{k + 1};' for k in range(1, 32)}
    return {ENTRY: '<!ENTITY % p1 SYSTEM "m1.ent">%p1;', "m32.ent": last, **files}


def module_depths():
    over = '<!ENTITY % p33 SYSTEM "no.ent">%p33;'
    return [
        Row("depth: 32 modules open in one another", module_chain("<!ELEMENT a EMPTY>"), "check - m.dtd", 0, counts(1)),
        Row("depth: a module too many", module_chain(over), "check - m.dtd", 2,
            "refused E24 EntityTooDeep m32.ent 31 p33\n"),
        Row("depth: a body in the innermost of 32 modules", module_chain('<!ENTITY % p33 "b">\n<!ELEMENT a (%p33;)>'),
            "check - m.dtd", 2, "refused E24 EntityTooDeep m32.ent 20 p33\n"),
    ]


# Name, what stands where all is spent, the counts or the refusal.
SPENDING = [
    ("the last character is included", "", ()),
    ("one character more, between declarations", '<!ENTITY % y " ">¶%y;', "E25 ExpansionOver @ y"),
    ("one character more, in a body", '<!ENTITY % y "b">¶<!ELEMENT a (%y;)>', "E25 ExpansionOver @ y"),
    ("one character more, in an entity value", '<!ENTITY % y "b">¶<!ENTITY a "%y;">', "E25 ExpansionOver @ y"),
    ("one character more, in a keyword", '<!ENTITY % y " ">¶<![%y;INCLUDE[]]>', "E25 ExpansionOver @ y"),
    ("one character more, in the value of an attribute", '<!ENTITY y "b">¶<!ATTLIST a k CDATA "&y;">',
     "E25 ExpansionOver @ y"),
    ("entities of no characters", '<!ENTITY % y ""><!ENTITY z ""><!ATTLIST a k CDATA "&z;">%y;<!ELEMENT a (b%y;)>',
     (1, 1, 1)),
    ("what is no included text does not count",
     '<!ENTITY a "&#65;&amp;&u;"><!ATTLIST a k CDATA "&#65;&amp;"><![INCLUDE[<!ELEMENT a EMPTY>]]>', (1, 1, 1)),
    ("what does not bind does not count",
     '<!ENTITY % y "b"><!ENTITY a ""><!ENTITY a "%y;"><!ATTLIST a k CDATA "" k CDATA "&a;">', (0, 1, 1)),
    ("an entity that is not declared comes first", "¶%u;", "E21 UndeclaredPe @ u"),
]


def spending():
    out = []
    for name, text, wanted in SPENDING:
        if isinstance(wanted, str):
            out.append(refused("included: " + name, SPENT + text, wanted))
        else:
            out.append(counted("included: " + name, SPENT + text, *wanted))
    module = b'<?xml version="1.0"?>' + b"\r\n" * PART
    entry = '<!ENTITY % w SYSTEM "w.ent">' + "%w;" * 64
    more = refused("included: a module's characters, and one more", entry + '<!ENTITY % y " ">¶%y;',
                   "E25 ExpansionOver @ y")
    sets = SPENT + "<!ELEMENT a EMPTY>"
    return out + [
        Row("included: a module's characters without its text declaration", {ENTRY: entry, "w.ent": module},
            "check - m.dtd", 0, counts()),
        more._replace(files={**more.files, "w.ent": module}),
        compared("included: each of two sets has characters of its own", sets, sets, "a", 0, "subset\ndocuments some\n"),
    ]


def doubled_values(count):
    """a0 has 16 characters, and each value is two references to the one before."""
    lines = [f'<!ENTITY % a0 "{"x" * 16}">'] + [f'<!ENTITY % a{k} "%a{k - 1};%a{k - 1};">' for k in range(1, count + 1)]
    return "".join(lines[:-1]) + "¶" + lines[-1]


def height_of(place, height):
    """The height of the part at this place, from 1, where the parts of a full tree of two branches stand in a row,
    each before what is below it."""
    while place > 1:
        place -= 1
        height -= 1
        below = 2 ** (height + 1) - 1
        if place > below:
            place -= below
    return height


def doubled_texts(kind, sign):
    """Entities p00 to p30 of ten characters each, of which each but the first calls the one before it twice."""
    lines = [f'<!ENTITY {kind}p00 "          ">']
    lines += [f'<!ENTITY {kind}p{k:02d} "{sign}p{k - 1:02d};{sign}p{k - 1:02d};">' for k in range(1, 31)]
    return "".join(lines)


def doubled():
    over = f"E25 ExpansionOver @ p{height_of(INCLUDED // 10 + 1, 30):02d}"
    parameters = doubled_texts("% ", "&#37;")
    return [
        counted("bomb: values doubled 21 times", doubled_values(21).replace("¶", "")),
        refused("bomb: values doubled 22 times", doubled_values(22), "E25 ExpansionOver @ a21"),
        refused("bomb: texts doubled 30 times, between declarations", parameters + "¶%p30;", over),
        refused("bomb: texts doubled 30 times, in a body", parameters + "¶<!ELEMENT a (%p30;)>", over),
        refused("bomb: texts doubled 30 times, in an entity value", parameters + '¶<!ENTITY a "%p30;">', over),
        refused("bomb: texts doubled 30 times, in the value of an attribute",
                doubled_texts("", "&") + '¶<!ATTLIST a k CDATA "&p30;">', over),
    ]


def bombs():
    return [
        counted("bomb: 100,000 included sections in one another", "<![INCLUDE[" * 100_000 + "]]>" * 100_000),
        refused("bomb: 100,000 included sections that do not end",
                "<![INCLUDE[" * 99_999 + "¶<![INCLUDE[", "E20 Malformed @"),
        flat("bomb: 100,000 sections in an ignored one",
             "<![IGNORE[" + "<![" * 100_000 + "]]>" * 100_001 + "<!ELEMENT a EMPTY>", "<!ELEMENT a EMPTY>\n"),
        refused("bomb: 100,000 sections in an ignored one that does not end",
                "<!--c-->¶<![IGNORE[" + "<![" * 100_000 + "]]>" * 100_000, "E20 Malformed @"),
        refused("bomb: 100,000 parentheses", "¶<!ELEMENT a " + "(" * 100_000 + "b" + ")" * 100_000 + ">",
                "E44 GroupTooDeep @"),
        refused("bomb: 100,000 parentheses of an attribute", "¶<!ATTLIST a k " + "(" * 100_000 + ">", "E20 Malformed @"),
        refused("bomb: 20,000 entities in one another", nested(20_000, "") + "¶%p20000;", "E24 EntityTooDeep @ p19968"),
        counted("bomb: 1,000,000 references to nothing", '<!ENTITY % x "">' + "%x;" * 1_000_000),
        refused("bomb: 1,000,000 quotes", "¶<!ELEMENT a " + "''" * 1_000_000 + ">", "E20 Malformed @"),
    ]


def rows():
    return parameter_depths() + general_depths() + module_depths() + bombs()


def slow_rows():
    """Rows that include 67,108,864 characters."""
    return spending() + doubled()
