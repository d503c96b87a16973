"""Flat texts, byte for byte, and that each is its own flat text with the same counts."""

from .form import ENTRY, each, flat_twice, stands

# Name, a text that is its own flat text, its counts.
STANDING = [
    ("references of a value and of an attribute",
     '<!ENTITY q "a&#38;#60;b&#37;&#34;&#13;">\n<!ELEMENT e EMPTY>\n<!ATTLIST e v CDATA "x&#10;y">\n', (1, 1, 1)),
    ("each reference of an attribute", '<!ATTLIST e v CDATA "&#38;&#60;&#37;&#34;&#13;&#10;&#9;">\n', (0, 1)),
    ("each reference of an entity", '<!ENTITY q "&#38;x;&#38;#38;&#60;&#37;&#34;&#13;">\n', (0, 0, 1)),
    ("line ends and tabs of an entity stand as they are", '<!ENTITY q "a\n\tb ">\n', (0, 0, 1)),
    ("what need not be a reference", "<!ENTITY q \"'>]é𐀀\x7f\">\n<!ATTLIST e v CDATA \"'>]é𐀀\x7f\">\n", (0, 1, 1)),
    ("a system literal with a quote and one with an apostrophe",
     "<!NOTATION n SYSTEM 'a\"b'>\n<!NOTATION m SYSTEM \"a'b\">\n<!ENTITY x SYSTEM 'a\"b'>\n<!ENTITY y SYSTEM \"a'b\">\n",
     (0, 0, 2, 2)),
    ("signs in system literals stand as they are",
     '<!NOTATION n SYSTEM "&lt;&#0;%x;<>\n\t">\n<!ENTITY x SYSTEM "&%<!--">\n', (0, 0, 1, 1)),
    ("signs in public literals stand as they are", '<!NOTATION n PUBLIC "-\'()+,./:=?;!*#@$_%x;">\n', (0, 0, 0, 1)),
    ("notations of each kind",
     '<!NOTATION a SYSTEM "s">\n<!NOTATION b PUBLIC "p" "s">\n<!NOTATION c PUBLIC "p">\n<!NOTATION d PUBLIC "" "">\n',
     (0, 0, 0, 4)),
    ("entities of each kind",
     '<!NOTATION n PUBLIC "p">\n<!ENTITY a "">\n<!ENTITY b SYSTEM "s">\n<!ENTITY c PUBLIC "p" "s">\n'
     '<!ENTITY d SYSTEM "s" NDATA n>\n<!ENTITY e PUBLIC "p" \'"\' NDATA n>\n', (0, 0, 5, 1)),
    ("attributes of each type",
     "<!ATTLIST a a CDATA #IMPLIED>\n<!ATTLIST a b ID #IMPLIED>\n<!ATTLIST a c IDREF #IMPLIED>\n"
     "<!ATTLIST a d IDREFS #IMPLIED>\n<!ATTLIST a e ENTITY #IMPLIED>\n<!ATTLIST a f ENTITIES #IMPLIED>\n"
     "<!ATTLIST a g NMTOKEN #IMPLIED>\n<!ATTLIST a h NMTOKENS #IMPLIED>\n<!ATTLIST a i (-|1|x) #IMPLIED>\n", (0, 9)),
    ("notations of an attribute",
     '<!NOTATION x PUBLIC "p">\n<!NOTATION y PUBLIC "p">\n<!ATTLIST a n NOTATION (y|x) "x">\n', (0, 1, 0, 2)),
    ("each preset",
     '<!ATTLIST a k CDATA #REQUIRED>\n<!ATTLIST a l CDATA #IMPLIED>\n<!ATTLIST a m CDATA "">\n'
     '<!ATTLIST a n CDATA #FIXED "">\n<!ATTLIST a o (x) #REQUIRED>\n<!ATTLIST a p (x) "x">\n'
     '<!ATTLIST a q (x) #FIXED "x">\n', (0, 7)),
    ("an attribute list of an element that is not declared",
     "<!ELEMENT a EMPTY>\n<!ATTLIST b k CDATA #IMPLIED>\n", (1, 1)),
    ("names of other letters", "<!ELEMENT :é語𐀀 (_|a-·)>\n", (1,)),
]

# Name, a module, its flat text, the counts.
WRITTEN = [
    ("numbers of base sixteen become decimal", "<!ENTITY q '&#x26;&#x3c;&#x25;&#x22;&#xD;'>",
     '<!ENTITY q "&#38;&#60;&#37;&#34;&#13;">\n', (0, 0, 1)),
    ("numbers of an attribute become decimal", "<!ATTLIST e v CDATA '&#x26;&#x3C;%\"&#xd;&#xA;&#x009;'>",
     '<!ATTLIST e v CDATA "&#38;&#60;&#37;&#34;&#13;&#10;&#9;">\n', (0, 1)),
    ("names that are always there become decimal", "<!ATTLIST e v CDATA '&amp;&lt;&quot;&gt;&apos;'>",
     '<!ATTLIST e v CDATA "&#38;&#60;&#34;>\'">\n', (0, 1)),
    ("numbers of plain characters become characters", "<!ENTITY q '&#65;&#10;&#233;'>", '<!ENTITY q "A\né">\n', (0, 0, 1)),
    ("a quote of an entity in apostrophes", "<!ENTITY q 'a\"b'>", '<!ENTITY q "a&#34;b">\n', (0, 0, 1)),
    ("an ampersand alone in an entity", "<!ENTITY q '&#38;'>", '<!ENTITY q "&#38;">\n', (0, 0, 1)),
    ("an entity of a tag", "<!ENTITY q '<b>x</b>'>", '<!ENTITY q "&#60;b>x&#60;/b>">\n', (0, 0, 1)),
    ("a carriage return in a system literal becomes a line end",
     "<!ENTITY % d \"<!ENTITY x SYSTEM 'a&#13;b'>\">%d;", '<!ENTITY x SYSTEM "a\nb">\n', (0, 0, 1)),
    ("a carriage return with a line end in a system literal of a notation",
     "<!ENTITY % d \"<!NOTATION x PUBLIC 'p' '&#13;&#10;'>\">%d;", '<!NOTATION x PUBLIC "p" "\n\n">\n', (0, 0, 0, 1)),
    ("a carriage return in a public literal is white space",
     "<!ENTITY % d \"<!NOTATION x PUBLIC 'a&#13;&#10; b&#13;'>\">%d;", '<!NOTATION x PUBLIC "a b">\n', (0, 0, 0, 1)),
    ("a carriage return is white space in a declaration",
     "<!ENTITY % d \"<!ELEMENT&#13;a&#13;(b,&#13;c)&#13;>\">%d;", "<!ELEMENT a (b,c)>\n", (1,)),
    ("white space of a public identifier is collapsed", "<!NOTATION n PUBLIC '  a \n  b\n' '  s  '>",
     '<!NOTATION n PUBLIC "a b" "  s  ">\n', (0, 0, 0, 1)),
    ("character data under a sign and without names", "<!ELEMENT a ( #PCDATA )*>", "<!ELEMENT a (#PCDATA)>\n", (1,)),
    ("a mixed content without blanks", "<!ELEMENT a ( #PCDATA | b |\nc )* >", "<!ELEMENT a (#PCDATA|b|c)*>\n", (1,)),
    ("a content without blanks", "<!ELEMENT a ( ( b , c? )+ | d )* >", "<!ELEMENT a ((b,c?)+|d)*>\n", (1,)),
    ("lists of tokens without blanks",
     "<!NOTATION x SYSTEM ''><!ATTLIST a k ( 1 |\n2 ) #IMPLIED n NOTATION ( x ) #IMPLIED>",
     '<!NOTATION x SYSTEM "">\n<!ATTLIST a k (1|2) #IMPLIED>\n<!ATTLIST a n NOTATION (x) #IMPLIED>\n', (0, 2, 0, 1)),
    ("white space in declarations", "<!NOTATION\tn\nPUBLIC  'p'\t><!ENTITY  e\nSYSTEM  's'  NDATA\n n >",
     '<!NOTATION n PUBLIC "p">\n<!ENTITY e SYSTEM "s" NDATA n>\n', (0, 0, 1, 1)),
    ("the four lists in their order",
     "<!ATTLIST b k CDATA ''><!ELEMENT b EMPTY><!ENTITY b ''><!NOTATION b SYSTEM ''>"
     "<!ATTLIST a k CDATA ''><!ELEMENT a EMPTY><!ENTITY a ''><!NOTATION a SYSTEM ''>",
     '<!NOTATION b SYSTEM "">\n<!NOTATION a SYSTEM "">\n<!ENTITY b "">\n<!ENTITY a "">\n'
     '<!ELEMENT b EMPTY>\n<!ELEMENT a EMPTY>\n<!ATTLIST b k CDATA "">\n<!ATTLIST a k CDATA "">\n', (2, 2, 2, 2)),
    ("attributes in the order of their elements' first lists",
     "<!ATTLIST b x CDATA ''><!ATTLIST a y CDATA ''><!ATTLIST b z CDATA ''>",
     '<!ATTLIST b x CDATA "">\n<!ATTLIST b z CDATA "">\n<!ATTLIST a y CDATA "">\n', (0, 3)),
    ("a list of nothing is none", "<!ATTLIST b><!ATTLIST a x CDATA ''><!ATTLIST b y CDATA ''>",
     '<!ATTLIST a x CDATA "">\n<!ATTLIST b y CDATA "">\n', (0, 2)),
    ("the first definition of an attribute binds", "<!ATTLIST a k CDATA 'x' k NMTOKEN 'y'><!ATTLIST a k (z) 'z'>",
     '<!ATTLIST a k CDATA "x">\n', (0, 1)),
    ("the first declaration of an entity binds", "<!ENTITY x 'a'><!ENTITY x SYSTEM 'b'><!ENTITY x 'c'>",
     '<!ENTITY x "a">\n', (0, 0, 1)),
    ("a parameter entity and a general one of one name", "<!ENTITY % x 'a'><!ENTITY x 'b'><!ENTITY y '%x;&x;'>",
     '<!ENTITY x "b">\n<!ENTITY y "a&#38;x;">\n', (0, 0, 2)),
    ("comments, instructions and sections are not written",
     "<!--c--><?p i?><![INCLUDE[<!--d--><!ELEMENT a EMPTY>]]><![IGNORE[<!ELEMENT b EMPTY>]]>",
     "<!ELEMENT a EMPTY>\n", (1,)),
    ("nothing but comments", "<!--c--> <?p i?>", "", ()),
    ("a module that is nothing", "", "", ()),
]


def standing(name, text, numbers):
    return stands("flat: " + name, text, *numbers)


def written(name, text, output, numbers):
    return flat_twice("flat: " + name, {ENTRY: text}, "- m.dtd", output, *numbers)


def rows():
    return each(standing, STANDING) + each(written, WRITTEN)
