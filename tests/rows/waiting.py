"""Texts of outer entities that are wanted while other texts wait: the expansion goes on where it stopped."""

from .form import ENTRY, MARK, Row, refused_files

OUTER = "".join(f'<!ENTITY % {n} SYSTEM "{n}.ent">' for n in ("o", "p", "q"))
TEXTS = {"o.ent": "c,%q;", "p.ent": "e", "q.ent": "f,g"}
INNER = '<!ENTITY % mid "b,&#37;o;,d"><!ENTITY % top "a,&#37;mid;,&#37;p;">'
MANY = 300


def flat(name, entry, files, output):
    return Row(name, {ENTRY: entry, **files}, "flatten - m.dtd", 0, output)


def many(call):
    """Outer entities, each its own name for one file, and what calls them all in one text."""
    names = [f"e{k}" for k in range(MANY)]
    return "".join(f'<!ENTITY % {n} SYSTEM "x.ent">' for n in names) + call.format("".join(f"%{n};" for n in names))


def rows():
    return [
        flat("waiting: three modules are loaded in one body, the texts before them waiting", OUTER + INNER + "<!ELEMENT r (%top;,h)>",
             TEXTS, "<!ELEMENT r (a,b,c,f,g,d,e,h)>\n"),
        flat("waiting: the same in an entity value", OUTER + INNER + '<!ENTITY v "(%top;,%o;)">', TEXTS,
             '<!ENTITY v "(a,b,c,f,g,d,e,c,f,g)">\n'),
        flat("waiting: the same in a keyword part", OUTER + '<!ENTITY % i "&#37;p;&#37;o;"><![ %i;%q; [<!ELEMENT a EMPTY>]]>',
             {"o.ent": "", "p.ent": "INCLUDE", "q.ent": ""}, "<!ELEMENT a EMPTY>\n"),
        flat("waiting: many modules in one body", many("<!ELEMENT r (a{})>"), {"x.ent": ",b"}, "<!ELEMENT r (a" + ",b" * MANY + ")>\n"),
        refused_files("waiting: a text that breaks nesting behind one that was loaded",
                      {ENTRY: OUTER + '<!ENTITY % mid "b&#37;o;>">' + MARK + "<!ELEMENT r (%mid;)>", "o.ent": ",c", "p.ent": "", "q.ent": ""},
                      "E23 PeNesting @ mid"),
        refused_files("waiting: a module that is absent behind one that was loaded",
                      {ENTRY: OUTER + "<!ELEMENT r (a%o;%q;)>", "o.ent": ",b"}, "E10 ModuleAbsent q.ent 0"),
    ]
