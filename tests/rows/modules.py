"""Modules: which are loaded, how their bytes are read, whose place a refusal names."""

from .form import CALL, ENTRY, INNER, Row, counted, counts, each, flat_twice, refused_files

CATALOG = 'PUBLIC "-//EX//DTD Custom Classes//EN" "custom-classes.ent"\n'

CUSTOMISED = {
    "cat.txt": CATALOG,
    "custom.dtd": """<?xml version="1.0" encoding="UTF-8"?>
<!ENTITY % custom-classes PUBLIC "-//EX//DTD Custom Classes//EN" "elsewhere.ent">
%custom-classes;
<!ENTITY % base SYSTEM "base.dtd">
%base;
""",
    "custom-classes.ent": '<!ENTITY % emph.class "italic">\n',
    "base.dtd": """<!ENTITY % classes SYSTEM "base-classes.ent">
%classes;
<!ENTITY % mixes SYSTEM "base-mixes.ent">
%mixes;
<!ENTITY % models SYSTEM "base-models.ent">
%models;
<!ENTITY % para SYSTEM "para.ent">
%para;
<!ENTITY % emph SYSTEM "emph.ent">
%emph;
""",
    "base-classes.ent": '<!ENTITY % emph.class "italic | bold">\n',
    "base-mixes.ent": '<!ENTITY % inline.mix "| %emph.class;">\n',
    "base-models.ent": '<!ENTITY % article.model "(title, p+)">\n',
    "para.ent": """<!ELEMENT article %article.model;>
<!ELEMENT title (#PCDATA %inline.mix;)*>
<!ELEMENT p (#PCDATA %inline.mix;)*>
""",
    "emph.ent": "<!ELEMENT italic (#PCDATA)>\n<!ELEMENT bold (#PCDATA)>\n",
}

CUSTOM_FLAT = """<!ELEMENT article (title,p+)>
<!ELEMENT title (#PCDATA|italic)*>
<!ELEMENT p (#PCDATA|italic)*>
<!ELEMENT italic (#PCDATA)>
<!ELEMENT bold (#PCDATA)>
"""

BASE_FLAT = """<!ELEMENT article (title,p+)>
<!ELEMENT title (#PCDATA|italic|bold)*>
<!ELEMENT p (#PCDATA|italic|bold)*>
<!ELEMENT italic (#PCDATA)>
<!ELEMENT bold (#PCDATA)>
"""

A = b"<!ELEMENT a EMPTY>"

# Name, the bytes of a module, the fault with the place in it.
BYTES = [
    ("a byte that begins no character", b"\xff", "E13 NotUtf8 # 0"),
    ("a byte that begins no character, after a declaration", A + b"\xff", "E13 NotUtf8 # 18"),
    ("a character that is cut by the end", b"  \xe2\x82", "E13 NotUtf8 # 2"),
    ("a surrogate", b"  \xed\xa0\x80", "E13 NotUtf8 # 2"),
    ("a character in more bytes than it needs", b" \xc0\xaf", "E13 NotUtf8 # 1"),
    ("a character above all characters", b"\xf4\x90\x80\x80", "E13 NotUtf8 # 0"),
    ("a byte order mark counts among the bytes", b"\xef\xbb\xbf\xff", "E13 NotUtf8 # 3"),
    ("an ill-formed byte before a form feed", b"\xff\x0c", "E13 NotUtf8 # 0"),
    ("a form feed", A + b"\x0c", "E14 NotChar # 18"),
    ("a form feed before an ill-formed byte", b"\x0c\xff", "E14 NotChar # 0"),
    ("a NUL", b"\x00", "E14 NotChar # 0"),
    ("the character FFFE", b"<!--\xef\xbf\xbe-->", "E14 NotChar # 4"),
    ("bytes are counted and not characters", "<!--é-->\x0c".encode(), "E14 NotChar # 9"),
    ("a form feed after a byte order mark", b"\xef\xbb\xbf" + A + b"\x0c", "E14 NotChar # 21"),
    ("a line end of two bytes counts twice among the bytes", b"\r\n\x0c", "E14 NotChar # 2"),
    ("a text declaration with no part", b"<?xml ?>", "E15 BadTextDecl # 0"),
    ("a text declaration that does not end", b'<?xml version="1.0"', "E15 BadTextDecl # 0"),
    ("a text declaration of another version", b'<?xml version="2.0"?>', "E15 BadTextDecl # 0"),
    ("a version without digits after its point", b'<?xml version="1."?>', "E15 BadTextDecl # 0"),
    ("a text declaration with two kinds of quotes", b"<?xml version='1.0\"?>", "E15 BadTextDecl # 0"),
    ("a name that begins no encoding", b'<?xml encoding="8utf"?>', "E15 BadTextDecl # 0"),
    ("an encoding that is nothing", b'<?xml encoding=""?>', "E15 BadTextDecl # 0"),
    ("a text declaration that stands alone neither way", b'<?xml standalone="maybe"?>', "E15 BadTextDecl # 0"),
    ("parts in another order", b'<?xml standalone="yes" encoding="UTF-8"?>', "E15 BadTextDecl # 0"),
    ("parts without white space between", b'<?xml version="1.0"encoding="UTF-8"?>', "E15 BadTextDecl # 0"),
    ("a bad part after another encoding", b'<?xml encoding="latin1" standalone="?"?>', "E15 BadTextDecl # 0"),
    ("a form feed before a bad text declaration is judged", b"<?xml ?>\x0c", "E14 NotChar # 8"),
    ("another encoding", b'<?xml encoding="latin1"?>', "E16 EncodingOther # 0"),
    ("a name that is like an encoding's", b'<?xml encoding="utf8"?>', "E16 EncodingOther # 0"),
    ("another encoding in a module whose declarations are malformed", b'<?xml encoding="UTF-16"?><',
     "E16 EncodingOther # 0"),
]

# Name, the bytes of the entry, the refusal.
BEGINNINGS = [
    ("a text declaration behind white space is none", b'\n<?xml version="1.0"?>', "E20 Malformed m.dtd 1"),
    ("a text declaration without white space is none", b"<?xml?>", "E20 Malformed m.dtd 0"),
    ("a second text declaration is none", b'<?xml version="1.0"?><?xml version="1.0"?>', "E20 Malformed m.dtd 0"),
    ("a second byte order mark is a character", b"\xef\xbb\xbf" * 2, "E20 Malformed m.dtd 0"),
    ("places are counted behind mark and text declaration",
     b"\xef\xbb\xbf<?xml version='1.0'?>" + A + b"x", "E20 Malformed m.dtd 18"),
    ("a line end of two bytes counts once among the characters", b"\r\n\r\n\rx", "E20 Malformed m.dtd 3"),
    ("characters are counted and not bytes", "<!--é𐀀-->x".encode(), "E20 Malformed m.dtd 9"),
]

ACCEPTED_BYTES = [
    ("a byte order mark is dropped", b"\xef\xbb\xbf" + A, (1,)),
    ("a text declaration with all its parts",
     b"<?xml version = '1.12'\n encoding=\"us-ascii\" standalone = \"no\" ?>" + A, (1,)),
    ("a text declaration of an encoding alone", b'<?xml encoding="utf-8"?>' + A, (1,)),
    ("a text declaration of a version alone", b'<?xml version="1.1"?>' + A, (1,)),
    ("letters of all languages under US-ASCII",
     '<?xml encoding="US-ASCII"?><!ELEMENT é EMPTY><!ELEMENT 語·𐀀 EMPTY>'.encode(), (2,)),
    ("a name that only begins like a text declaration", b'<?xml-style a="b"?>' + A, (1,)),
    ("the last characters of the planes", "<!--\ufffd\U0010ffff-->".encode(), ()),
    ("delete and other controls above", b"<!--\x7f\xc2\x80-->", ()),
    ("a module that is nothing", b"", ()),
]

# Name, the files, the refusal; @ is the place of the mark.
PLACES = [
    ("an entry that is not there", {"other.dtd": ""}, "E10 ModuleAbsent m.dtd 0", "check - m.dtd"),
    ("an entry in a folder that is not there", {ENTRY: ""}, "E10 ModuleAbsent no/m.dtd 0", "check - no/m.dtd"),
    ("an inner module that is not there",
     {ENTRY: '<!ELEMENT a EMPTY>\n<!ENTITY % x SYSTEM "parts/no.ent">\n%x;'}, "E10 ModuleAbsent parts/no.ent 0",
     "check - m.dtd"),
    ("an inner module that is not there, in a body", {ENTRY: '<!ENTITY % x SYSTEM "no.ent"><!ELEMENT a (%x;)>'},
     "E10 ModuleAbsent no.ent 0", "check - m.dtd"),
    ("an inner module that is not there, in a value", {ENTRY: '<!ENTITY % x SYSTEM "no.ent"><!ENTITY a "%x;">'},
     "E10 ModuleAbsent no.ent 0", "check - m.dtd"),
    ("a word that only looks like none", {ENTRY: ""}, "E10 ModuleAbsent - 0", "check - -"),
    ("a module that an inner module calls is sought from there",
     {"e/m.dtd": CALL, "e/d/x.ent": '<!ENTITY % y SYSTEM "y.ent">%y;'}, "E10 ModuleAbsent e/d/y.ent 0",
     "check - e/m.dtd"),
    ("a fault in a module that a declaration includes has the place of the declaration",
     {ENTRY: '<!ENTITY % x SYSTEM "d/x.ent">\n¶<!ELEMENT a (%x;)>', INNER: "b>"}, "E23 PeNesting @ x",
     "check - m.dtd"),
    ("an item in an included module counts from the module's own beginning",
     {ENTRY: "\n\n" + CALL, INNER: "<!ELEMENT a EMPTY>¶x"}, "E20 Malformed @", "check - m.dtd"),
    ("a reference in an inner entity has the place of the call in the module",
     {ENTRY: CALL, INNER: '<!ENTITY % y "  &#37;z;">¶%y;'}, "E21 UndeclaredPe @ z", "check - m.dtd"),
    ("after an included module the places are the entry's again", {ENTRY: CALL + "¶x", INNER: "<!ELEMENT a EMPTY>"},
     "E20 Malformed @", "check - m.dtd"),
    ("a section that is open in an inner module ends there", {ENTRY: CALL + "]]>", INNER: "¶<![INCLUDE["},
     "E20 Malformed @", "check - m.dtd"),
    ("a declaration does not go on over the end of a module", {ENTRY: CALL + "EMPTY>", INNER: "¶<!ELEMENT a "},
     "E20 Malformed @", "check - m.dtd"),
    ("a module may call itself once", {ENTRY: '<!ENTITY % x SYSTEM "m.dtd">¶%x;'}, "E22 RecursivePe @ x",
     "check - m.dtd"),
    ("a fault of an earlier item comes before an absent module", {ENTRY: "¶<!ELEMENT a>" + CALL},
     "E20 Malformed @", "check - m.dtd"),
    ("an absent module comes before a fault of a later item", {ENTRY: CALL + "<!ELEMENT a>"},
     "E10 ModuleAbsent d/x.ent 0", "check - m.dtd"),
    ("a path above the folder", {ENTRY: '<!ENTITY % x SYSTEM "../x.ent">¶%x;'}, "E51 PathEscapes @ ../x.ent",
     "check - m.dtd"),
    ("a path that goes down and above", {ENTRY: '<!ENTITY % x SYSTEM "a/../../x.ent">¶%x;'},
     "E51 PathEscapes @ a/../../x.ent", "check - m.dtd"),
    ("a path from the root", {ENTRY: '<!ENTITY % x SYSTEM "/x.ent">¶%x;'}, "E51 PathEscapes @ /x.ent",
     "check - m.dtd"),
    ("a path with a colon", {ENTRY: '<!ENTITY % x SYSTEM "http://example.org/x.ent">¶%x;'},
     "E51 PathEscapes @ http://example.org/x.ent", "check - m.dtd"),
    ("a path that is nothing", {ENTRY: '<!ENTITY % x SYSTEM "">¶%x;'}, "E51 PathEscapes @ ", "check - m.dtd"),
    ("a path of which nothing is left", {ENTRY: '<!ENTITY % x SYSTEM "./.">¶%x;'}, "E51 PathEscapes @ ./.",
     "check - m.dtd"),
    ("a path above the folder, in an inner module",
     {ENTRY: CALL, INNER: '<!ENTITY % x SYSTEM "../../x.ent">\n¶%x;'}, "E51 PathEscapes @ ../../x.ent",
     "check - m.dtd"),
    ("a path above the folder, in a body", {ENTRY: '<!ENTITY % x SYSTEM "../x.ent">¶<!ELEMENT a (%x;)>'},
     "E51 PathEscapes @ ../x.ent", "check - m.dtd"),
    ("a path above the folder, in an inner entity's text",
     {ENTRY: '<!ENTITY % x SYSTEM "../x.ent"><!ENTITY % y " &#37;x;">¶%y;'}, "E51 PathEscapes @ ../x.ent",
     "check - m.dtd"),
]

# Name, the files, the words after flatten, the flat text, the counts.
ACCEPTED = [
    ("an outer entity that is never called is not loaded",
     {ENTRY: '<!ENTITY % x SYSTEM "no.ent"><!ENTITY % y SYSTEM "../y"><!ELEMENT a EMPTY>'}, "- m.dtd",
     "<!ELEMENT a EMPTY>\n", (1,)),
    ("the second declaration of an outer entity does not bind",
     {ENTRY: '<!ENTITY % x SYSTEM "x.ent"><!ENTITY % x SYSTEM "no.ent">%x;', "x.ent": A}, "- m.dtd",
     "<!ELEMENT a EMPTY>\n", (1,)),
    ("a module is sought from the folder of the entry",
     {"d/m.dtd": '<!ENTITY % x SYSTEM "n.ent">%x;', "d/n.ent": A, "n.ent": "<!ELEMENT b EMPTY>"}, "- d/m.dtd",
     "<!ELEMENT a EMPTY>\n", (1,)),
    ("a path above the entry's folder that stays within",
     {"d/e/m.dtd": '<!ENTITY % x SYSTEM "..//.././n.ent">%x;', "n.ent": A}, "- d/e/m.dtd",
     "<!ELEMENT a EMPTY>\n", (1,)),
    ("an entity that an inner module declares is sought from there, wherever it is called",
     {ENTRY: CALL + "%y;", INNER: '<!ENTITY % y SYSTEM "y.ent">', "d/y.ent": A, "y.ent": "<!ELEMENT b EMPTY>"},
     "- m.dtd", "<!ELEMENT a EMPTY>\n", (1,)),
    ("an entity that an inner text declares is sought from the module that calls the text",
     {ENTRY: CALL + "%decl;%y;", INNER: "<!ENTITY % decl \"<!ENTITY &#37; y SYSTEM 'y.ent'>\">",
      "y.ent": A, "d/y.ent": "<!ELEMENT b EMPTY>"},
     "- m.dtd", "<!ELEMENT a EMPTY>\n", (1,)),
    ("an outer entity in a body", {ENTRY: '<!ENTITY % x SYSTEM "x.ent"><!ELEMENT a (%x;|c)>', "x.ent": "b"},
     "- m.dtd", "<!ELEMENT a (b|c)>\n", (1,)),
    ("an outer entity in a value", {ENTRY: '<!ENTITY % x SYSTEM "x.ent"><!ENTITY a "-%x;-">',
                                    "x.ent": "<?xml version='1.0'?>&#65;\r\n"},
     "- m.dtd", '<!ENTITY a "-A\n-">\n', (0, 0, 1)),
    ("an outer entity in a keyword", {ENTRY: '<!ENTITY % x SYSTEM "x.ent"><![%x;[<!ELEMENT a EMPTY>]]>',
                                      "x.ent": "INCLUDE"}, "- m.dtd", "<!ELEMENT a EMPTY>\n", (1,)),
    ("two entities that name one module",
     {ENTRY: '<!ENTITY % x SYSTEM "x.ent"><!ENTITY % y SYSTEM "./x.ent"><!ELEMENT a (%x;)><!ELEMENT c (%y;)>',
      "x.ent": "b"}, "- m.dtd", "<!ELEMENT a (b)>\n<!ELEMENT c (b)>\n", (2,)),
    ("a module that holds declarations only for a section",
     {ENTRY: CALL + "<![%k;[<!ELEMENT a EMPTY>]]>", INNER: '<!ENTITY % k "INCLUDE">'}, "- m.dtd",
     "<!ELEMENT a EMPTY>\n", (1,)),
    ("general entities and notations are not loaded",
     {ENTRY: '<!ENTITY x SYSTEM "../no"><!NOTATION n PUBLIC "p" "http://no">'}, "- m.dtd",
     '<!NOTATION n PUBLIC "p" "http://no">\n<!ENTITY x SYSTEM "../no">\n', (0, 0, 1, 1)),
]


def of_bytes(name, data, fault):
    inside = {ENTRY: CALL, INNER: data}
    return [
        Row(name, {ENTRY: data}, "check - m.dtd", 2, f"refused {fault.replace('#', ENTRY)}\n"),
        Row(name + ", in an inner module", inside, "check - m.dtd", 2, f"refused {fault.replace('#', INNER)}\n"),
    ]


def customised():
    return flat_twice("a customisation of eight modules with its catalog", CUSTOMISED, "cat.txt custom.dtd",
                      CUSTOM_FLAT, 5) + [
        Row("the base of the customisation alone", CUSTOMISED, "flatten - base.dtd", 0, BASE_FLAT),
        Row("the base of the customisation alone, counted", CUSTOMISED, "check - base.dtd", 0, counts(5)),
        refused_files("the customisation without its catalog", CUSTOMISED, "E10 ModuleAbsent elsewhere.ent 0",
                      "check - custom.dtd"),
    ]


def folders():
    files = {"d/x.ent": "", ENTRY: '<!ENTITY % x SYSTEM "d">%x;'}
    return [
        Row("a folder as the entry is a failed load", files, "check - d", 4, ""),
        Row("a folder as an inner module is a failed load", files, "check - m.dtd", 4, ""),
        Row("an empty path below the top names a folder", {"d/m.dtd": '<!ENTITY % x SYSTEM "">%x;'},
            "check - d/m.dtd", 4, ""),
        Row("a folder as the catalog is a failed load", files, "check d m.dtd", 4, ""),
    ]


def accepted(name, files, words, output, numbers):
    return flat_twice(name, files, words, output, *numbers)


def beginning(name, data, line):
    return [Row(name, {ENTRY: data}, "check - m.dtd", 2, f"refused {line}\n")]


def rows():
    return [
        *customised(), *folders(), *each(of_bytes, BYTES), *each(beginning, BEGINNINGS),
        *[counted(name, data, *numbers) for name, data, numbers in ACCEPTED_BYTES],
        *[refused_files(*place) for place in PLACES],
        *each(accepted, ACCEPTED),
    ]
