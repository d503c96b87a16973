"""Articles: what is refused in them, beside the nearest neighbour that is read, and where.

In the text of an article the sign ¶ marks the place that the refusal names. `fill` shows what an article is read as."""

from .form import MARK, Row, each, unmarked

LIST = ('<!ELEMENT r (s*)>\n<!ELEMENT s EMPTY>\n'
        '<!ATTLIST s i ID #IMPLIED j IDREF #IMPLIED k (x|y) "x">\n')
ANY = "<!ELEMENT r ANY><!ATTLIST r a CDATA #IMPLIED b CDATA #IMPLIED>"
LIMIT = 33554432
OPEN = 2048


def place(text):
    return f"a.xml {text.find(MARK)}"


def refused(name, dtd, article, line, command="validate - m.dtd r a.xml"):
    """A refusal of an article; @ stands for its name and the mark's place."""
    files = {"m.dtd": dtd, "a.xml": unmarked(article)}
    return Row("articles: " + name, files, command, 2, f"refused {line.replace('@', place(article))}\n")


def read(name, dtd, article, written):
    """What an article is read as, by what `fill` writes of it where there are no defaults."""
    return Row("articles: " + name, {"m.dtd": dtd, "a.xml": article}, "fill - m.dtd a.xml", 0, written + "\n")


def beside(name, dtd, bad, line, good, written=None):
    """A refusal by both commands, beside its nearest neighbour that is read."""
    return [
        refused(name, dtd, bad, line),
        refused(name + ", filled", dtd, bad, line, "fill - m.dtd a.xml"),
        read(name + ", accepted beside", dtd, good, good if written is None else written),
    ]


def included(name, entity, bad, line, good, written):
    """A refusal of the text of an entity, beside a text that is read; and the same in an entity that includes it."""
    within = ANY + f'<!ENTITY t "{bad}">'
    deeper = within + '<!ENTITY o "&#38;t;">'
    return [
        refused(f"in an entity: {name}", entity + within, f"<r>{MARK}&t;</r>", line),
        refused(f"in an entity of an entity: {name}", entity + deeper, f"<r> {MARK}&o;</r>", line),
        read(f"in an entity: {name}, accepted beside", entity + ANY + f'<!ENTITY t "{good}">', "<r>&t;</r>",
             f"<r>{written}</r>"),
    ]


MALFORMED = "E60 ArticleMalformed @"

# name, what is refused with its place, and what is read beside it; each with ANY
GRAMMAR = [
    ("an article without an element", f" <!--x--> {MARK}", "<r/>"),
    ("an article that is empty", MARK, "<r/>"),
    ("text before the element", f" {MARK}x<r/>", " <r/>"),
    ("a reference before the element", f"{MARK}&amp;<r/>", "<?p?><r/>"),
    ("a section before the element", f"{MARK}<![CDATA[]]><r/>", "<!--x--><r/>"),
    ("an end tag before the element", f"{MARK}</r><r/>", "<r/>"),
    ("a second document type", f"<!DOCTYPE r>{MARK}<!DOCTYPE r><r/>", "<!DOCTYPE r><r/>"),
    ("a document type without a name", f"{MARK}<!DOCTYPE ><r/>", "<!DOCTYPE r ><r/>"),
    ("a document type without white space", f"{MARK}<!DOCTYPEr><r/>", "<!DOCTYPE\tr><r/>"),
    ("a document type in lower case", f"{MARK}<!doctype r><r/>", "<!DOCTYPE r><r/>"),
    ("a document type that does not end", f" {MARK}<!DOCTYPE r", " <!DOCTYPE r><r/>"),
    ("a public identifier without a system one", f'{MARK}<!DOCTYPE r PUBLIC "p"><r/>', '<!DOCTYPE r PUBLIC "p" "s"><r/>'),
    ("a public identifier with a brace", f'{MARK}<!DOCTYPE r PUBLIC "{{" "s"><r/>', '<!DOCTYPE r PUBLIC "p" "{"><r/>'),
    ("a system identifier without quotes", f"{MARK}<!DOCTYPE r SYSTEM s><r/>", "<!DOCTYPE r SYSTEM 's' ><r/>"),
    ("identifiers side by side", f"{MARK}<!DOCTYPE r PUBLIC 'p''s'><r/>", "<!DOCTYPE r PUBLIC 'p' 's'><r/>"),
    ("a start tag without a name", f"{MARK}< r/>", "<r />"),
    ("a start tag that does not end", f"{MARK}<r", "<r/>"),
    ("attributes side by side", f'{MARK}<r a="1"b="2"/>', '<r a="1" b="2"/>'),
    ("an attribute without a value", f"{MARK}<r a/>", '<r a=""/>'),
    ("a value without quotes", f"{MARK}<r a=1/>", "<r a = '1'/>"),
    ("a value that does not end", f'{MARK}<r a="1/>', '<r a="1"/>'),
    ("a value with the start of a tag", f'{MARK}<r a="<"/>', '<r a="&lt;"/>'),
    ("a value with a sign alone", f'{MARK}<r a="&"/>', '<r a="&amp;"/>'),
    ("a value with a reference that does not end", f'{MARK}<r a="&lt"/>', '<r a="&lt;"/>'),
    ("a value with a reference to no Char", f'{MARK}<r a="&#0;"/>', '<r a="&#9;"/>'),
    ("a slash that does not end the tag", f"{MARK}<r/ >", "<r/>"),
    ("an element that does not end", f"<r>{MARK}", "<r></r>"),
    ("an element that ends in the middle of text", f"<r>x{MARK}", "<r>x</r>"),
    ("an end tag that does not end", f"<r>{MARK}</r", "<r></r>"),
    ("an end tag with an attribute", f'<r>{MARK}</r a="">', "<r></r >"),
    ("an end tag with white space first", f"<r>{MARK}</ r>", "<r></r>"),
    ("the start of a tag alone", f"<r>{MARK}<</r>", "<r>&lt;</r>"),
    ("a sign alone", f"<r>{MARK}& </r>", "<r>&amp; </r>"),
    ("a reference without a name", f"<r>{MARK}&;</r>", "<r>&amp;</r>"),
    ("a reference that does not end", f"<r>{MARK}&amp</r>", "<r>&amp;</r>"),
    ("a reference to zero", f"<r>{MARK}&#0;</r>", "<r>&#9;</r>"),
    ("a reference to FFFE", f"<r>{MARK}&#xFFFE;</r>", "<r>&#xFFFD;</r>"),
    ("a reference to 110000", f"<r>{MARK}&#x110000;</r>", "<r>&#x10FFFF;</r>"),
    ("a reference to a surrogate", f"<r>{MARK}&#xD800;</r>", "<r>&#xD7FF;</r>"),
    ("a reference of forty digits", f"<r>{MARK}&#{'9' * 40};</r>", f"<r>&#{'0' * 38}65;</r>"),
    ("a reference of no digits", f"<r>{MARK}&#;</r>", "<r>&#49;</r>"),
    ("a reference with a capital X", f"<r>{MARK}&#X41;</r>", "<r>&#x41;</r>"),
    ("the end of a section among characters", f"<r>a{MARK}]]></r>", "<r>a]]&gt;</r>"),
    ("the end of a section behind a bracket", f"<r>]{MARK}]]></r>", "<r>]]]&gt;</r>"),
    ("the end of a section behind a section", f"<r><![CDATA[a]]>{MARK}]]></r>", "<r><![CDATA[a]]>]]&gt;</r>"),
    ("a section that does not end", f"<r>{MARK}<![CDATA[x]]</r>", "<r><![CDATA[x]]]]></r>"),
    ("a section in lower case", f"<r>{MARK}<![cdata[x]]></r>", "<r><![CDATA[x]]></r>"),
    ("a section of another name", f"<r>{MARK}<![INCLUDE[x]]></r>", "<r><![CDATA[x]]></r>"),
    ("a comment that does not end", f"<r>{MARK}<!--x></r>", "<r><!--x--></r>"),
    ("a comment with two hyphens", f"<r>{MARK}<!--x--y--></r>", "<r><!--x-y--></r>"),
    ("a comment that ends in three hyphens", f"<r>{MARK}<!--x---></r>", "<r><!--x- --></r>"),
    ("an instruction that does not end", f"<r>{MARK}<?p x></r>", "<r><?p x?></r>"),
    ("an instruction without a target", f"<r>{MARK}<? p?></r>", "<r><?p?></r>"),
    ("an instruction named xml", f"<r>{MARK}<?xml x?></r>", "<r><?xmlx x?></r>"),
    ("an instruction named XML", f"<r>{MARK}<?XML?></r>", "<r><?XML-x?></r>"),
    ("an instruction whose target ends in another sign", f"<r>{MARK}<?p=?></r>", "<r><?p =?></r>"),
    ("a declaration in content", f"<r>{MARK}<!ELEMENT r ANY></r>", "<r><!--ELEMENT r ANY--></r>"),
    ("a document type in content", f"<r>{MARK}<!DOCTYPE r></r>", "<r><!--DOCTYPE r--></r>"),
    ("a text declaration that is not first", f" {MARK}<?xml version='1.0'?><r/>", "<?xml version='1.0'?> <r/>"),
]

# what `fill` writes of the neighbours that are not written as they stand
WRITTEN = {
    "<?p?><r/>": "<r/>", " <r/>": "<r/>", "<!--x--><r/>": "<r/>", "<!DOCTYPE r><r/>": "<r/>",
    "<!DOCTYPE r ><r/>": "<r/>", "<!DOCTYPE\tr><r/>": "<r/>", " <!DOCTYPE r><r/>": "<r/>",
    '<!DOCTYPE r PUBLIC "p" "s"><r/>': "<r/>", '<!DOCTYPE r PUBLIC "p" "{"><r/>': "<r/>",
    "<!DOCTYPE r SYSTEM 's' ><r/>": "<r/>", "<!DOCTYPE r PUBLIC 'p' 's'><r/>": "<r/>", "<r />": "<r/>",
    "<r a = '1'/>": '<r a="1"/>', "<r></r>": "<r/>", "<r></r >": "<r/>", "<r>&#9;</r>": "<r>&#9;</r>",
    "<r>&#xFFFD;</r>": "<r>\ufffd</r>", "<r>&#x10FFFF;</r>": "<r>\U0010ffff</r>", "<r>&#xD7FF;</r>": "<r>\ud7ff</r>",
    f"<r>&#{'0' * 38}65;</r>": "<r>A</r>", "<r>&#49;</r>": "<r>1</r>", "<r>&#x41;</r>": "<r>A</r>",
    "<r><![CDATA[a]]>]]&gt;</r>": "<r>a]]&gt;</r>", "<r><![CDATA[x]]]]></r>": "<r>x]]</r>",
    "<r><![CDATA[x]]></r>": "<r>x</r>", "<?xml version='1.0'?> <r/>": "<r/>",
}


def grammar(name, bad, good):
    return beside(name, ANY, bad, MALFORMED, good, WRITTEN.get(good, good))


def included_grammar(name, bad, good, written):
    return included(name, "", bad, "E69 EntityNesting @ t", good, written)


# the text of an entity is content by itself
NESTING = [
    ("an element that does not end", "<r>", "<r/>", "<r/>"),
    ("an end tag that closes nothing", "</r>", "<r></r>", "<r/>"),
    ("the start of a tag", "<", "&#38;lt;", "&lt;"),
    ("a sign alone", "&#38;", "&#38;amp;", "&amp;"),
    ("a reference that does not end", "&#38;amp", "&#38;amp;", "&amp;"),
    ("the end of a section", "]]&#62;", "]]", "]]"),
    ("a comment that does not end", "<!--x", "<!--x-->", "<!--x-->"),
    ("an instruction that does not end", "<?p", "<?p?>", "<?p?>"),
    ("a section that does not end", "<![CDATA[x", "<![CDATA[x]]>", "x"),
    ("a value with a sign alone", "<r a='&#38;'/>", "<r a='&#38;amp;'/>", '<r a="&amp;"/>'),
    ("a tag that does not end", "<r a='1'", "<r a='1'/>", '<r a="1"/>'),
]


def other_rows():
    """Refusals that are no departures from the grammar."""
    external = ANY + '<!ENTITY x SYSTEM "x.xml">'
    unparsed = ANY + '<!NOTATION n SYSTEM "n"><!ENTITY x SYSTEM "x" NDATA n>'
    word = ANY + '<!ENTITY x "w">'
    itself = ANY + '<!ENTITY x "a&#38;x;">'
    mutual = ANY + '<!ENTITY x "&#38;y;"><!ENTITY y "&#38;x;">'
    less = ANY + '<!ENTITY x "&#60;">'
    two = '<r a="1" b="2"/>'
    return [
        *beside("an end tag of another name", ANY, f"<r><r>{MARK}</s></r>", "E61 TagMismatch @ r s", "<r><r></r></r>", "<r><r/></r>"),
        *beside("an end tag in other letters", ANY, f"<r>{MARK}</R>", "E61 TagMismatch @ r R", "<r></r>", "<r/>"),
        *beside("an attribute twice", ANY, f'<r>{MARK}<r a="1" b="2" a="1"/></r>', "E62 RepeatedAttribute @ r a", f"<r>{two}</r>"),
        *beside("the first attribute that repeats", ANY, f'{MARK}<r a="" b="" b="" a=""/>', "E62 RepeatedAttribute @ r b", two),
        *beside("an entity that is not declared", ANY, f"<r>x{MARK}&x;</r>", "E63 EntityUnknown @ x", "<r>x&gt;</r>"),
        *beside("an entity that is not declared, in a value", ANY, f'<r>{MARK}<r a="&x;"/></r>', "E63 EntityUnknown @ x",
                '<r><r a="&apos;"/></r>', '<r><r a="\'"/></r>'),
        *beside("an external entity", external, f"<r>{MARK}&x;</r>", "E64 EntityExternal @ x", "<r/>"),
        *beside("an external entity in a value", external, f'{MARK}<r a="&x;"/>', "E64 EntityExternal @ x", "<r/>"),
        *beside("an unparsed entity", unparsed, f"<r>{MARK}&x;</r>", "E64 EntityExternal @ x", "<r/>"),
        *beside("an entity that includes itself", itself, f"<r> {MARK}&x;</r>", "E28 RecursiveEntity @ x", "<r> </r>"),
        *beside("entities that include each other", mutual, f"<r>{MARK}&y;</r>", "E28 RecursiveEntity @ y", "<r/>"),
        *beside("an entity that includes itself in a value", itself, f'{MARK}<r a="&x;"/>', "E28 RecursiveEntity @ x", "<r/>"),
        *beside("the start of a tag from an entity in a value", less, f'{MARK}<r a="&x;"/>', "E27 LessThanInValue @ a", '<r a="&#60;"/>', '<r a="&lt;"/>'),
        *beside("an internal subset", ANY, f"{MARK}<!DOCTYPE r []><r/>", "E67 InternalSubset @", "<!DOCTYPE r><r/>", "<r/>"),
        *beside("an internal subset behind an identifier", ANY, f" {MARK}<!DOCTYPE r SYSTEM 's' [<!--", "E67 InternalSubset @", " <!DOCTYPE r SYSTEM 's'><r/>", "<r/>"),
        *beside("a second element", ANY, f"<r/>{MARK}<r/>", "E66 RestAfterRoot @", "<r/> ", "<r/>"),
        *beside("text behind the element", ANY, f"<r></r> {MARK}x", "E66 RestAfterRoot @", "<r></r>\n<?p?><!--x-->", "<r/>"),
        *beside("a reference behind the element", ANY, f"<r/>{MARK}&#32;", "E66 RestAfterRoot @", "<r/> ", "<r/>"),
        *beside("a document type behind the element", ANY, f"<r/>\n{MARK}<!DOCTYPE r>", "E66 RestAfterRoot @", "<r/>\n", "<r/>"),
        *beside("a comment behind the element that does not end", ANY, f"<r/>{MARK}<!--x", "E66 RestAfterRoot @", "<r/><!--x-->", "<r/>"),
        *beside("an end tag behind the element", ANY, f"<r/>{MARK}</r>", "E66 RestAfterRoot @", "<r/>", "<r/>"),
        # in included texts these keep their numbers, at the outermost reference
        refused("in an entity: an end tag of another name", ANY + '<!ENTITY t "<r></s>">', f"<r> {MARK}&t;</r>", "E61 TagMismatch @ r s"),
        refused("in an entity: an attribute twice", ANY + '<!ENTITY t "<r a=\'\' a=\'\'/>">', f"<r> {MARK}&t;</r>", "E62 RepeatedAttribute @ r a"),
        refused("in an entity: an entity that is not declared", ANY + '<!ENTITY t "&#38;u;">', f"<r> {MARK}&t;</r>", "E63 EntityUnknown @ u"),
        refused("in an entity: the innermost is named", ANY + '<!ENTITY t "&#38;u;"><!ENTITY u "<r>">', f"<r>{MARK}&t;</r></r>", "E69 EntityNesting @ u"),
        refused("in an entity: a value that includes a sign", ANY + '<!ENTITY b "&#38;"><!ENTITY t "<r a=\'&#38;b;\'/>">', f"<r> {MARK}&t;</r>", "E69 EntityNesting @ t"),
        refused("a value that includes a sign", ANY + '<!ENTITY b "&#38;">', f'<r> {MARK}<r a="&b;"/></r>', MALFORMED),
        refused("in an entity: a value that includes it again", ANY + '<!ENTITY t "<r a=\'&#38;t;\'/>">', f"<r> {MARK}&t;</r>", "E28 RecursiveEntity @ t"),
        # brackets of two texts do not make the end of a section
        read("the end of a section over two texts", word.replace('"w"', '"]]"'), "<r>&x;></r>", "<r>]]&gt;</r>"),
        read("an entity twice", word, "<r>&x;&x;</r>", "<r>ww</r>"),
        read("a value of an entity", word, '<r a="&x; &x;"/>', '<r a="w w"/>'),
        read("an element from an entity", ANY + "<!ENTITY x '<r a=\"1\">t</r>'>", "<r>&x;</r>", '<r><r a="1">t</r></r>'),
        read("a predefined entity that is declared again", ANY + '<!ENTITY lt "w">', "<r>&lt;</r>", "<r>&lt;</r>"),
    ]


# tests in their order, where several faults stand in one tag or reference
ORDER = [
    ("the form of a tag comes before its values", ANY, f'{MARK}<r a="&x;" b/>', MALFORMED),
    ("an earlier value comes first", ANY, f'{MARK}<r a="&x;" b="&y;"/>', "E63 EntityUnknown @ x"),
    ("a value comes before an attribute twice", ANY, f'{MARK}<r a="&x;" a=""/>', "E63 EntityUnknown @ x"),
    ("a value comes before depth", ANY, "<r>" * OPEN + f'{MARK}<r a="&x;"/>', "E63 EntityUnknown @ x"),
    ("an attribute twice comes before depth", ANY, "<r>" * OPEN + f'{MARK}<r a="" a=""/>', "E62 RepeatedAttribute @ r a"),
    ("an earlier element comes first", ANY, f'<r>{MARK}<r a="" a=""/></s>', "E62 RepeatedAttribute @ r a"),
    ("an article's own fault comes before what is wrong in it", LIST, f"<q>{MARK}<", MALFORMED),
]


def writing_rows():
    """How items, values and runs are written."""
    item = ("<!ELEMENT r (#PCDATA|r)*><!ATTLIST r a CDATA #IMPLIED b CDATA #IMPLIED>"
            '<!ENTITY nul ""><!ENTITY w "&#32;"><!ENTITY c "&#38;#32;"><!ENTITY cr "&#13;">')
    return each(lambda name, article, written: [read(name, item, article, written)], [
        ("values are written with references", "<r a='\"&lt;&amp;&#9;&#10;&#13;>'/>", '<r a="&quot;&lt;&amp;&#9;&#10;&#13;>"/>'),
        ("white space of a value is spaces", '<r a="\t\n "/>', '<r a="   "/>'),
        ("line ends of a value", '<r a="1\r\n2\r3"/>', '<r a="1 2 3"/>'),
        ("white space from an entity in a value", '<r a="&cr;&w;"/>', '<r a="  "/>'),
        ("text is written with references", "<r>\"'&lt;&gt;&amp;&#13;</r>", "<r>\"'&lt;&gt;&amp;&#13;</r>"),
        ("a greater sign in text", "<r>a>b</r>", "<r>a&gt;b</r>"),
        ("line ends of text", "<r>a\r\nb\rc</r>", "<r>a\nb\nc</r>"),
        ("plain white space stands as it is", "<r> \t\n </r>", "<r> \t\n </r>"),
        ("white space from an entity that has it as itself is plain", "<r>&w;</r>", "<r> </r>"),
        ("white space from a reference in an entity is not", "<r>&c;</r>", "<r>&#32;</r>"),
        ("white space from a reference is not plain", "<r>&#32; </r>", "<r>&#32; </r>"),
        ("a reference behind white space", "<r> &#9;\n</r>", "<r>&#32;\t\n</r>"),
        ("white space in a section is not plain", "<r><![CDATA[ ]]></r>", "<r>&#32;</r>"),
        ("a section without characters", "<r><![CDATA[]]></r>", "<r><![CDATA[]]></r>"),
        ("a section without characters beside white space", "<r> <![CDATA[]]></r>", "<r>&#32;</r>"),
        ("an entity without characters", "<r>&nul;</r>", "<r></r>"),
        ("an entity without characters beside white space", "<r>&nul; </r>", "<r> </r>"),
        ("a return from an entity", "<r>&cr;</r>", "<r>\n</r>"),
        ("a run over references", "<r>a&lt;<![CDATA[<]]>&w;b</r>", "<r>a&lt;&lt; b</r>"),
        ("a comment parts runs", "<r>a<!--c-->b</r>", "<r>a<!--c-->b</r>"),
        ("an instruction and its body", "<r><?p  x y ?></r>", "<r><?p x y ?></r>"),
        ("an instruction without a body", "<r><?p ?></r>", "<r><?p?></r>"),
        ("line ends of comments and instructions", "<r><!--\r\n--><?p\ra?></r>", "<r><!--\n--><?p a?></r>"),
        ("characters of two bytes and more", "<r a='é'>é€😀</r>", '<r a="é">é€😀</r>'),
        ("an element without items", "<r><r></r></r>", "<r><r/></r>"),
    ])


def load_rows():
    """What stops the bytes of an article."""
    words = "validate - m.dtd r a.xml"

    def stopped(name, data, line):
        return Row("articles: " + name, {"m.dtd": ANY, "a.xml": data}, words, 2, f"refused {line}\n")

    def valid(name, data):
        return Row("articles: " + name, {"m.dtd": ANY, "a.xml": data}, words, 0, "valid\n")

    return [
        Row("articles: an absent article", {"m.dtd": ANY}, words, 2, "refused E10 ModuleAbsent a.xml 0\n"),
        Row("articles: an absent article, filled", {"m.dtd": ANY}, "fill - m.dtd a.xml", 2, "refused E10 ModuleAbsent a.xml 0\n"),
        Row("articles: a fault of the set comes before an absent article", {"m.dtd": "<"}, words, 2, "refused E20 Malformed m.dtd 0\n"),
        Row("articles: a fault of the catalog comes before that of the set", {"m.dtd": "<", "c.txt": "x"}, "validate c.txt m.dtd r a.xml", 2,
            "refused E50 CatalogMalformed c.txt 1\n"),
        Row("articles: an absent set comes before an absent article", {}, words, 2, "refused E10 ModuleAbsent m.dtd 0\n"),
        Row("articles: an article named with a hyphen", {"m.dtd": ANY}, "validate - m.dtd r -", 2, "refused E10 ModuleAbsent - 0\n"),
        stopped("bytes that are no UTF-8", b"<r>\xc3\xa9\xff</r>", "E13 NotUtf8 a.xml 5"),
        stopped("bytes that are no UTF-8 behind a mark", b"\xef\xbb\xbf<r>\xff</r>", "E13 NotUtf8 a.xml 6"),
        stopped("a surrogate in UTF-8", b"<r>\xed\xa0\x80</r>", "E13 NotUtf8 a.xml 3"),
        stopped("a character that is no Char", "<r>é\x01</r>", "E14 NotChar a.xml 5"),
        stopped("FFFE", "<r>\ufffe</r>", "E14 NotChar a.xml 3"),
        stopped("a text declaration of no form", "<?xml ?><r/>", "E15 BadTextDecl a.xml 0"),
        stopped("another encoding", '<?xml version="1.0" encoding="latin1"?><r/>', "E16 EncodingOther a.xml 0"),
        stopped("bytes come before the grammar", b"<\xff", "E13 NotUtf8 a.xml 1"),
        stopped("a text declaration counts in no offset", '<?xml version="1.0"?><r/><r/>', "E66 RestAfterRoot a.xml 4"),
        valid("a mark and a text declaration", b'\xef\xbb\xbf<?xml version="1.0" encoding="utf-8" standalone="yes"?>\n<r/>'),
        valid("the last character and FFFD", "<r>\ufffd\U0010ffff</r>"),
        valid("an article as long as one may be", lambda: "<r/>" + " " * (LIMIT - 4)),
        stopped("an article of one byte more", lambda: "<r/>" + " " * (LIMIT - 3), "E11 ModuleLong a.xml 0"),
        stopped("the length comes before the bytes", lambda: b"\xff" * (LIMIT + 1), "E11 ModuleLong a.xml 0"),
    ]


def chain(count):
    """Entities of which each includes the next: the first reference opens so many."""
    rows = "".join(f'<!ENTITY e{k} "&#38;e{k + 1};">' for k in range(1, count))
    return ANY + rows + f'<!ENTITY e{count} "w">'


def doubled(times):
    """An entity of so many doublings of 16 characters."""
    rows = "".join(f'<!ENTITY e{k} "&#38;e{k - 1};&#38;e{k - 1};">' for k in range(1, times + 1))
    return "<!ELEMENT r ANY><!ENTITY e0 '0123456789abcdef'>" + rows


def limit_rows():
    """Each limit of an article at its number and one past it."""
    deepest = "<r>" * (OPEN - 1)
    ends = "</r>" * (OPEN - 1)
    words = "validate - m.dtd r a.xml"
    return [
        Row("articles: as many open elements as there may be", {"m.dtd": ANY, "a.xml": f"{deepest}<r/>{ends}"}, words, 0, "valid\n"),
        Row("articles: as many open elements as there may be, filled", {"m.dtd": ANY, "a.xml": f"{deepest}<r/>{ends}"}, "fill - m.dtd a.xml", 0,
            f"{deepest}<r/>{ends}\n"),
        refused("one open element more", ANY, f"{deepest}<r>{MARK}<r/></r>{ends}", "E65 ElementTooDeep @ r"),
        refused("one open element more, in an entity", ANY + '<!ENTITY t "<r><r/></r>">', f"{deepest}{MARK}&t;{ends}", "E65 ElementTooDeep @ r"),
        read("as many open entities as there may be", chain(32), "<r>&e1;</r>", "<r>w</r>"),
        read("as many open entities as there may be, in a value", chain(32), '<r a="&e1;"/>', '<r a="w"/>'),
        refused("one open entity more", chain(33), f"<r>{MARK}&e1;</r>", "E24 EntityTooDeep @ e33"),
        refused("one open entity more, in a value", chain(33), f'{MARK}<r a="&e1;"/>', "E24 EntityTooDeep @ e33"),
    ]


def rows():
    return [
        *each(grammar, GRAMMAR),
        *each(included_grammar, NESTING),
        *other_rows(),
        *[refused("order: " + name, dtd, article, line) for name, dtd, article, line in ORDER],
        *writing_rows(),
        *load_rows(),
        *limit_rows(),
    ]


def slow_rows():
    """Texts that double until too many characters are included."""
    over = "E25 ExpansionOver @ "
    return [
        refused("an entity doubled 40 times", doubled(40), f"<r>{MARK}&e40;</r>", "E24 EntityTooDeep @ e8"),
        refused("an entity doubled 22 times", doubled(22), f"<r>{MARK}&e22;</r>", over + "e0"),
    ]
