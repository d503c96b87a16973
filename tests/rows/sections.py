"""Conditional sections."""

from .form import counted, each, flat, refused_both

DRAFT = "<![%draft;[\n<!ELEMENT a EMPTY>\n]]>\n<!ELEMENT b EMPTY>\n"
BOOK = ("<![%draft;[\n<!ELEMENT book (comments*, title, body, supplements?)>\n]]>\n"
        "<![%final;[\n<!ELEMENT book (title, body, supplements?)>\n]]>\n")
A_EMPTY = "<!ELEMENT a EMPTY>\n"

READ = [
    ("a section whose entity is INCLUDE", '<!ENTITY % draft "INCLUDE">\n' + DRAFT,
     "<!ELEMENT a EMPTY>\n<!ELEMENT b EMPTY>\n"),
    ("a section whose entity was made IGNORE before",
     '<!ENTITY % draft "IGNORE">\n<!ENTITY % draft "INCLUDE">\n' + DRAFT, "<!ELEMENT b EMPTY>\n"),
    ("of two sections the draft is read", "<!ENTITY % draft 'INCLUDE' >\n<!ENTITY % final 'IGNORE' >\n" + BOOK,
     "<!ELEMENT book (comments*,title,body,supplements?)>\n"),
    ("of two sections the final is read", "<!ENTITY % draft 'IGNORE' >\n<!ENTITY % final 'INCLUDE' >\n" + BOOK,
     "<!ELEMENT book (title,body,supplements?)>\n"),
    ("a quote does not count in an ignored section", '<![IGNORE[<![x]]>"]]><!ELEMENT a EMPTY>', A_EMPTY),
    ("an apostrophe does not count in an ignored section", "<![IGNORE[ it's ]]><!ELEMENT a EMPTY>", A_EMPTY),
    ("a comment does not hide the end of an ignored section",
     "<![IGNORE[<!-- ]]><!ELEMENT a EMPTY>", A_EMPTY),
    ("a comment hides the end of an included section",
     "<![INCLUDE[<!-- ]]> --><!ELEMENT a EMPTY>]]>", A_EMPTY),
    ("sections nest in an ignored one", "<![IGNORE[<![INCLUDE[<![x]]>]]>x]]><!ELEMENT a EMPTY>", A_EMPTY),
    ("an ignored section in an included one",
     "<![INCLUDE[<![IGNORE[<!ELEMENT b EMPTY>]]><!ELEMENT a EMPTY>]]>", A_EMPTY),
    ("white space round a keyword", "<![ \n INCLUDE\t[<!ELEMENT a EMPTY>]]><![ IGNORE [x]]>", A_EMPTY),
    ("a bracket more before the end of an ignored section", "<![IGNORE[]]]><!ELEMENT a EMPTY>", A_EMPTY),
    ("an ignored section with nothing in it", "<![IGNORE[]]><!ELEMENT a EMPTY>", A_EMPTY),
    ("an included section with nothing in it", "<![INCLUDE[]]><!ELEMENT a EMPTY>", A_EMPTY),
    ("an entity declared in a section binds after it",
     '<![INCLUDE[<!ENTITY % k "INCLUDE">]]><![%k;[<!ELEMENT a EMPTY>]]>', A_EMPTY),
    ("an entity declared in an ignored section does not bind",
     '<![IGNORE[<!ENTITY % k "IGNORE">]]><!ENTITY % k "INCLUDE"><![%k;[<!ELEMENT a EMPTY>]]>', A_EMPTY),
]

REFUSED = [
    ("what follows the end of an ignored section is read", '<![IGNORE[<![x]]>"]]>¶" ]]>', "E20 Malformed @"),
    ("a section that does not end", "¶<![INCLUDE[", "E20 Malformed @"),
    ("the innermost of two sections that do not end", "<![INCLUDE[ ¶<![INCLUDE[ ", "E20 Malformed @"),
    ("the outer of two sections does not end", " ¶<![INCLUDE[<![INCLUDE[]]> ", "E20 Malformed @"),
    ("an ignored section that does not end", " ¶<![IGNORE[<![INCLUDE[]]>", "E20 Malformed @"),
    ("a fault in a section that does not end comes first", "<![INCLUDE[ ¶x", "E20 Malformed @"),
    ("a section start without its bracket", "¶<![INCLUDE", "E20 Malformed @"),
    ("a section with one bracket at its end", "<![INCLUDE[¶]>", "E20 Malformed @"),
    ("an end of a section that is none", "<!ELEMENT a EMPTY>¶]]>", "E20 Malformed @"),
    ("an end too many", "<![INCLUDE[]]>¶]]>", "E20 Malformed @"),
    ("a keyword in small letters", "¶<![include[]]>", "E20 Malformed @"),
    ("a keyword that is nothing", "¶<![[]]>", "E20 Malformed @"),
    ("a keyword of another word", "¶<![CDATA[]]>", "E20 Malformed @"),
    ("two keywords", "¶<![INCLUDE IGNORE[]]>", "E20 Malformed @"),
    ("a keyword in quotes is copied and not read", '¶<![ "%x;" [', "E20 Malformed @"),
    ("the entities of a wrong keyword are read first", "¶<![ foo %x; [", "E21 UndeclaredPe @ x"),
    ("a keyword reaches over lines and ends of declarations to the next bracket",
     "¶<![ INCLUDE >\n<!ELEMENT a EMPTY> [ ]]>", "E20 Malformed @"),
    ("a section start within an ignored section counts", "¶<![IGNORE[<![]]>", "E20 Malformed @"),
    ("the place of a fault in a section is that of its item", "<![INCLUDE[ ¶<!ELEMENT a>]]>", "E20 Malformed @"),
]


def rows():
    return [
        *[flat(name, text, output) for name, text, output in READ],
        *each(refused_both, REFUSED),
        counted("an included section is counted", "<![INCLUDE[<!ATTLIST a k CDATA ''>]]>", 0, 1),
    ]
