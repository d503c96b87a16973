"""Limits, each at its number and one past it, and what has no limit."""

from .form import ENTRY, Row, counted, counts, each, refused, refused_both

MODULE = 4_194_304
MODULES = 1_024
SET = 33_554_432
FOLLOWS = 16_000_000
OUTPUT = 268_435_456


def joined(sign, first, last):
    return sign.join(f"n{k}" for k in range(first, last + 1))


def elements(first, last):
    return "".join(f"<!ELEMENT e{k} EMPTY>" for k in range(first, last + 1))


def star(names):
    """A choice of so many names under a star, which has names * (names + 1) follows."""
    return f"({joined('|', 1, names)})*"


def bytes_of_modules():
    wide, over = b" " * MODULE, b" " * (MODULE + 1)
    call = '<!ENTITY % x SYSTEM "x.ent">%x;'
    absent = "refused E11 ModuleLong {} 0\n"
    return [
        Row("limit: bytes of an entry", {ENTRY: wide}, "check - m.dtd", 0, counts()),
        Row("past: bytes of an entry", {ENTRY: over}, "check - m.dtd", 2, absent.format(ENTRY)),
        Row("limit: bytes of an entry, all flat", {ENTRY: wide[18:] + b"<!ELEMENT a EMPTY>"}, "flatten - m.dtd", 0,
            "<!ELEMENT a EMPTY>\n"),
        Row("past: bytes of an entry that are no text", {ENTRY: b"\xff" * (MODULE + 1)}, "check - m.dtd", 2,
            absent.format(ENTRY)),
        Row("past: bytes of an entry with a byte order mark", {ENTRY: b"\xef\xbb\xbf" + wide[2:]}, "check - m.dtd", 2,
            absent.format(ENTRY)),
        Row("limit: bytes of an inner module", {ENTRY: call, "x.ent": wide}, "check - m.dtd", 0, counts()),
        Row("past: bytes of an inner module", {ENTRY: call, "x.ent": over}, "check - m.dtd", 2, absent.format("x.ent")),
        Row("limit: bytes of a catalog", {ENTRY: "", "cat.txt": wide}, "check cat.txt m.dtd", 0, counts()),
        Row("past: bytes of a catalog", {ENTRY: "", "cat.txt": over}, "check cat.txt m.dtd", 2, absent.format("cat.txt")),
    ]


def calls(count):
    return "".join(f'<!ENTITY % m{k} SYSTEM "m{k}.ent">%m{k};' for k in range(1, count + 1))


def inner_modules(count):
    return {f"m{k}.ent": "" for k in range(1, count + 1)}


def number_of_modules():
    full = MODULES - 1
    held = inner_modules(full)
    again = '<!ENTITY % again SYSTEM "m7.ent">%again;<!ENTITY % self SYSTEM "m.dtd"><!ELEMENT a EMPTY>'
    escape = calls(full) + '<!ENTITY % x SYSTEM "../x">'
    return [
        Row("limit: modules of a set", {ENTRY: calls(full), **held}, "check - m.dtd", 0, counts()),
        Row("limit: modules of a set with a catalog", {ENTRY: calls(full), "cat.txt": "", **held},
            "check cat.txt m.dtd", 0, counts()),
        Row("limit: a module that is called again counts once", {ENTRY: calls(full) + again, **held},
            "check - m.dtd", 0, counts(1)),
        Row("past: modules of a set", {ENTRY: calls(full + 1), **inner_modules(full + 1)}, "check - m.dtd", 2,
            f"refused E12 SetOver m{full + 1}.ent 0\n"),
        Row("past: a module that is not there is one too many first", {ENTRY: calls(full + 1), **held},
            "check - m.dtd", 2, f"refused E12 SetOver m{full + 1}.ent 0\n"),
        Row("past: a path that escapes comes before a module too many", {ENTRY: escape + "%x;", **held},
            "check - m.dtd", 2, f"refused E51 PathEscapes m.dtd {len(escape)} ../x\n"),
    ]


def bytes_of_sets():
    entry = calls(8)
    rest = MODULE - len(entry)
    held = {ENTRY: entry, **{f"m{k}.ent": b" " * MODULE for k in range(1, 8)}}
    over = "refused E12 SetOver m8.ent 0\n"
    return [
        Row("limit: bytes of a set", {**held, "m8.ent": b" " * rest}, "check - m.dtd", 0, counts()),
        Row("past: bytes of a set", {**held, "m8.ent": b" " * (rest + 1)}, "check - m.dtd", 2, over),
        Row("past: bytes of a set that are no text", {**held, "m8.ent": b"\xff" * (rest + 1)}, "check - m.dtd", 2, over),
        Row("past: bytes of a module come before those of its set", {**held, "m8.ent": b" " * (MODULE + 1)},
            "check - m.dtd", 2, "refused E11 ModuleLong m8.ent 0\n"),
    ]


def declarations():
    """Name, a module at the limit, its counts, a module past it, the refusal."""
    deep, deeper = "(" * 64 + "a" + ")" * 64, "(" * 65 + "a" + ")" * 65
    mixed = "<!ELEMENT r (#PCDATA|{})*>"
    inner = "<!ELEMENT r ({},({}|{})*)>"
    first = joined(",", 1, 500)
    return [
        ("elements", elements(1, 1024), (1024,), elements(1, 1024) + "¶" + elements(1025, 1025),
         "E41 ElementsOver @ e1025"),
        ("names of a sequence", f"<!ELEMENT r ({joined(',', 1, 1024)})>", (1,),
         f"¶<!ELEMENT r ({joined(',', 1, 1025)})>", "E42 PositionsOver @ r"),
        ("names of a choice", f"<!ELEMENT r ({joined('|', 1, 1024)})>", (1,),
         f"¶<!ELEMENT r ({joined('|', 1, 1025)})>", "E42 PositionsOver @ r"),
        ("names of a mixed content", mixed.format(joined("|", 1, 1024)), (1,), "¶" + mixed.format(joined("|", 1, 1025)),
         "E42 PositionsOver @ r"),
        ("names of groups", inner.format(first, joined("|", 501, 601), joined("|", 602, 1024)), (1,),
         "¶" + inner.format(first, joined("|", 501, 601), joined("|", 602, 1025)), "E42 PositionsOver @ r"),
        ("one name many times", "<!ELEMENT r (" + ",".join("a" * 1024) + ")>", (1,),
         "¶<!ELEMENT r (" + ",".join("a" * 1025) + ")>", "E42 PositionsOver @ r"),
        ("groups in one another", f"<!ELEMENT r {deep}>", (1,), f"¶<!ELEMENT r {deeper}>", "E44 GroupTooDeep @"),
        ("groups in one another twice", f"<!ELEMENT r ({deep[1:-1]})><!ELEMENT s {deep}>", (2,),
         f"<!ELEMENT r {deep}>¶<!ELEMENT s ({deep})>", "E44 GroupTooDeep @"),
        ("groups beside one another", f"<!ELEMENT r ({deep[1:-1]},{deep[1:-1]})>", (1,),
         f"¶<!ELEMENT r ({deep[1:-1]},{deep})>", "E44 GroupTooDeep @"),
    ]


def follows():
    wide = "".join(f"<!ELEMENT e{k} {star(1000)}>" for k in range(1, 16))
    exact = wide + f"<!ELEMENT f {star(991)}><!ELEMENT g {star(43)}><!ELEMENT h (#PCDATA|{joined('|', 1, 36)})*>"
    assert 15 * 1000 * 1001 + 991 * 992 + 43 * 44 + 36 == FOLLOWS
    return [
        counted("limit: follows of 15 wide contents", wide, 15),
        refused("past: follows of 16 wide contents", wide + f"¶<!ELEMENT e16 {star(1000)}>", "E43 FollowsOver @ e16"),
        counted("limit: follows to the last one", exact + "<!ELEMENT i EMPTY><!ELEMENT j ANY><!ELEMENT k (#PCDATA)>", 21),
        refused("past: one follow more", exact + "¶<!ELEMENT i (a)>", "E43 FollowsOver @ i"),
        refused("past: one follow more of a mixed content", exact + "¶<!ELEMENT i (#PCDATA|a)*>", "E43 FollowsOver @ i"),
        refused("past: names that compete come before follows", exact + "¶<!ELEMENT i (a|a)>", "E32 Ambiguous @ i 1 2"),
    ]


def unlimited():
    many = range(3_000)
    long = "n" * 100_000
    tokens = "|".join(f"t{k}" for k in range(2_000))
    return [
        counted("no limit: a long name", f"<!ELEMENT {long} (a{long})>", 1),
        counted("no limit: attributes of an element",
                "<!ATTLIST a" + "".join(f" k{k} CDATA #IMPLIED" for k in many) + ">", 0, 3_000),
        counted("no limit: lists of attributes", "".join(f"<!ATTLIST a{k} k CDATA #IMPLIED>" for k in many), 0, 3_000),
        counted("no limit: general entities", "".join(f"<!ENTITY x{k} ''>" for k in many), 0, 0, 3_000),
        counted("no limit: notations", "".join(f"<!NOTATION x{k} SYSTEM ''>" for k in many), 0, 0, 0, 3_000),
        counted("no limit: parameter entities", "".join(f"<!ENTITY % x{k} ' '>%x{k};" for k in many)),
        counted("no limit: tokens of an attribute", f"<!ATTLIST a k ({tokens}) 't1999'>", 0, 1),
        counted("no limit: characters of a value", f"<!ATTLIST a k CDATA '{long}'>", 0, 1),
        counted("no limit: white space in a declaration", "<!ELEMENT" + "\n" * 1_000_000 + "a EMPTY>", 1),
        counted("no limit: a comment", "<!--" + "- " * 1_000_000 + "-->"),
        refused("no limit: a place", " \n" * 1_000_000 + "¶x", "E20 Malformed @"),
    ]


def at_and_past(name, good, numbers, bad, line):
    return [counted("limit: " + name, good, *numbers), *refused_both("past: " + name, bad, line)]


# The other commands, with the set past a limit in each place of a set; the other set and the article are right.
COMMANDS = ("flatten - m.dtd", "validate - m.dtd a x.xml", "fill - m.dtd x.xml", "least - m.dtd a 5",
            "report - m.dtd - ok.dtd a", "report - ok.dtd - m.dtd a", "compare - m.dtd - ok.dtd a 0", "compare - ok.dtd - m.dtd a 9",
            "verify c.txt - m.dtd - ok.dtd", "verify c.txt - ok.dtd - m.dtd")
BESIDE = {"ok.dtd": "<!ELEMENT a EMPTY>", "x.xml": "<a/>", "c.txt": "certificate 1 a 0\nelement a 1 inf\nstate 0 0 inf\npair 0 0 inf\nend\n"}


def for_each_command(over):
    """A refusal of `check` by each command that reads a set."""
    assert over.words == "check - m.dtd" and over.status == 2
    return [Row(f"{over.name}, by {words}", {**over.files, **BESIDE}, words, 2, over.output) for words in COMMANDS]


def past_limits():
    over = [row for row in bytes_of_modules() + number_of_modules() + each(at_and_past, declarations()) + follows() + bytes_of_sets()
            if row.name.startswith("past: ") and row.words == "check - m.dtd"]
    return [row for past in over for row in for_each_command(past)]


def rows():
    return bytes_of_modules() + number_of_modules() + follows() + unlimited() + each(at_and_past, declarations())


def wide_texts(last):
    """107 entities of 500,000 `<` each, and one of so many letters."""
    many = "".join(f"<!ENTITY x{k} '%p;'>" for k in range(107))
    return f"<!ENTITY % p '{500_000 * '&#60;'}'>{many}<!ENTITY y '{last * 'y'}'>"


def wide_output(last):
    """Their flat text: each `<` takes five bytes."""
    many = "".join(f'<!ENTITY x{k} "{500_000 * "&#60;"}">\n' for k in range(107))
    return f'{many}<!ENTITY y "{last * "y"}">\n'


def bytes_of_output():
    lines = sum(len(f'<!ENTITY x{k} "">\n') for k in range(107)) + len('<!ENTITY y "">\n')
    last = OUTPUT - 107 * 5 * 500_000 - lines
    return [
        Row("limit: bytes of an output", {ENTRY: lambda: wide_texts(last)}, "flatten - m.dtd", 0, lambda: wide_output(last)),
        Row("past: bytes of an output", {ENTRY: lambda: wide_texts(last + 1)}, "flatten - m.dtd", 2,
            "refused E46 OutputOver - 0\n"),
    ]


def slow_rows():
    """Rows that load 33,554,432 bytes or write 268,435,456, and each limit by each command."""
    return bytes_of_sets() + bytes_of_output() + past_limits()
