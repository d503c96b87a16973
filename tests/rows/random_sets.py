"""Random sets of modules. A set is a dictionary of files, and the words that name it."""

NAMES = ["a", "b", "c", "d1", "x:y", "é", "語", "_k", "p-q.r", "Z", "ANY", "ID", "m·", "𐀀", "n", "o", "r", "s"]
PIECES = ["x", "Q9", " ", "&#38;", "&#60;", "&#37;", "&#34;", "&#13;", "&#10;", "&#9;", "&#x3C;", "&#x26;", "&amp;",
          "&lt;", "&quot;", "é", ">", "\n", "\t", "]]>", "--", "<b>", "&#38;#60;", "&#38;lt;", "&u;", "𐀀", "&#32;"]
VALUES = [piece for piece in PIECES if "<" not in piece and piece != "&u;"] + ["%", "%pe;", "\r\n"]
COMMENTS = ["<!-- it's \"so\" -->", "<?p <!ELEMENT?>", "<!---->", "<?q?>", " ", "\r\n"]
IGNORED = ["<![IGNORE[ <!ELEMENT \" ]]>", "<![ IGNORE [<![INCLUDE[ x ]]> ' ]]>", "<![%ignored;[<!ATTLIST a]]>"]


class Maker:
    def __init__(self, random):
        self.random = random
        self.pick = random.choice
        self.notations, self.entities, self.elements, self.identified = [], [], {}, set()
        self.noted = set()
        self.made = 0

    def chance(self, share):
        return self.random.random() < share

    def fresh(self):
        self.made += 1
        return f"{self.pick(['w', 'é', '_', 'k.'])}{self.made}"

    def quoted(self, text):
        """The text in quotes of one kind; the other kind may stand in it."""
        quote, other = self.pick(["\"'", "'\""])
        return quote + text.replace(quote, other) + quote

    def text(self, pieces):
        return "".join(self.pick(pieces + ["'", '"']) for _ in range(self.random.randrange(6)))

    def ids(self):
        system = self.quoted(self.pick(["s", "", "a'b", 'a"b', "&%x;<", "../x y", "http://e.org/é", "a\nb"]))
        public = self.quoted(self.pick(["p", "", "  -//E//DTD  x \n y//EN ", "it's", "%x;"]).replace('"', "'"))
        if self.chance(0.5):
            return "SYSTEM " + system
        return f"PUBLIC {public if chr(39) not in public[1:-1] else chr(34) + public[1:-1] + chr(34)} {system}"

    def notation(self):
        name = self.fresh()
        self.notations.append(name)
        return f"<!NOTATION {name} " + (self.ids() if self.chance(0.7) else "PUBLIC  ' p \n q '") + " >"

    def entity(self):
        name = self.fresh() if self.chance(0.8) else "u"
        if self.chance(0.6):
            return f"<!ENTITY {name} {self.quoted(self.text(PIECES + ['%pe;']))}>"
        if self.notations and self.chance(0.4):
            return f"<!ENTITY  {name} {self.ids()} NDATA {self.pick(self.notations)}>"
        return f"<!ENTITY {name}\n{self.ids()} >"

    def plain_entity(self):
        """An entity whose text may stand in a value."""
        name = self.fresh()
        self.entities.append(name)
        text = self.pick(["x", "", "&#38;#60;", "&#38;amp;", "\t&#10; ", "&#38;#9;", "'", "&#34;", "é"])
        return f"<!ENTITY {name} {self.quoted(text)}>"

    def group(self, names, deep):
        """A model in which no name comes twice."""
        sign = self.pick(["", "", "?", "*", "+"])
        if len(names) == 1 and (deep == 0 or self.chance(0.7)):
            return names[0] + sign
        if deep == 0:
            return self.pick([" , ", ",", "|", "| "]).join(names)
        cut = self.random.randrange(1, len(names)) if len(names) > 1 else 1
        parts = [self.group(part, deep - 1) for part in (names[:cut], names[cut:]) if part]
        parts = [part if deep > 1 or part in names or part[:-1] in names else f"({part})" for part in parts]
        return "(" + self.pick([",", " | "]).join(parts) + ")" + sign

    def content(self):
        names = self.random.sample(NAMES, self.random.randrange(1, 7))
        kind = self.random.randrange(6)
        if kind == 0:
            return "EMPTY"
        if kind == 1:
            return self.pick(["ANY", "(#PCDATA)", "( #PCDATA )*"])
        if kind == 2:
            return "(#PCDATA|" + " | ".join(names) + ")*"
        if kind == 3 and self.chance(0.3):
            return f"({names[0]},%list;)"
        model = self.group(names, self.random.randrange(1, 5))
        return model if model.startswith("(") else f"({model})"

    def element(self):
        free = [name for name in NAMES if name not in self.elements]
        name = self.pick(free) if free and self.chance(0.98) else self.pick(NAMES)
        self.elements.setdefault(name, self.content())
        return f"<!ELEMENT {name} {self.elements[name]} >"

    def value(self, kind, tokens):
        if self.chance(0.01):
            return self.quoted(self.text(PIECES))
        if kind == "CDATA":
            extra = [f"&{name};" for name in self.entities]
            return self.quoted(self.text(VALUES + extra))
        if tokens:
            return self.quoted(self.pick(["", " ", "\n"]) + self.pick(tokens) + self.pick(["", "  "]))
        word = self.pick(["1-", "é", "x"]) if kind.startswith("NMTOKEN") else self.pick(["k1", "語", ":"])
        return self.quoted(f" {word}" + (f"\t {word}\n" if kind.endswith("S") else ""))

    def kind(self, element):
        kind = self.pick(["CDATA"] * 4 + ["ID", "IDREF", "IDREFS", "ENTITY", "ENTITIES", "NMTOKEN", "NMTOKENS",
                                          "NOTATION", "", ""])
        if kind == "ID" and (element in self.identified or self.chance(0.3)):
            return "CDATA", []
        if kind == "ID":
            self.identified.add(element)
        if kind == "NOTATION":
            if not self.notations or element in self.noted or self.elements.get(element, "EMPTY") == "EMPTY":
                return "NMTOKENS", []
            self.noted.add(element)
            return kind, self.random.sample(self.notations, self.random.randrange(1, len(self.notations) + 1))
        return kind, [] if kind else self.random.sample(["1", "-", "x", "y.z", "é"], self.random.randrange(1, 5))

    def attribute(self, element):
        kind, tokens = self.kind(element)
        spelled = " ".join(part for part in (kind, "( " + " |".join(tokens) + ")" if tokens else "") if part)
        preset = self.pick(["#REQUIRED", "#IMPLIED", "", "", "#FIXED "])
        if kind == "ID":
            preset = self.pick(["#REQUIRED", "#IMPLIED"])
        if not preset.startswith(("#R", "#I")):
            preset += self.value(kind, tokens)
        return f"{self.fresh() if self.chance(0.9) else 'again'} {spelled}\n{preset}"

    def attributes(self):
        element = self.pick(NAMES)
        count = self.random.randrange(5)
        return f"<!ATTLIST {element} " + " ".join(self.attribute(element) for _ in range(count)) + ">"

    def declaration(self):
        made = self.pick([self.element, self.element, self.attributes, self.attributes, self.entity, self.plain_entity,
                          self.notation])()
        way = self.random.randrange(10)
        if way == 0:
            return f"<![INCLUDE[{made}]]>"
        if way == 1:
            return f"<![ %included; [ <![INCLUDE[{made}]]> {self.pick(COMMENTS)} ]]>"
        if way == 2:
            name = f"t{self.made}{len(made)}"
            held = made.replace("&", "&#38;").replace("%", "&#37;").replace('"', "&#34;")
            return f'<!ENTITY % {name} "{held}">%{name};'
        if way == 3:
            return self.pick(IGNORED) + made
        return made


def random_set(random):
    """The files of a set, and the words that name it."""
    maker = Maker(random)
    files, calls = {}, []
    first = ('<!ENTITY % included "INCLUDE"><!ENTITY % ignored "IGNORE"><!ENTITY % pe "p&#38;#37;">'
             '<!ENTITY % list "q1,q2"><!ENTITY u "v">')
    for k in range(random.randrange(1, 5)):
        parts = [maker.declaration() + maker.pick(COMMENTS) for _ in range(random.randrange(1, 9))]
        name = f"{maker.pick(['', 'd/', 'd/e/'])}m{k}.ent"
        files[name] = maker.pick(["", "<?xml encoding='UTF-8'?>", "\ufeff"]) + "".join(parts)
        calls.append(f'<!ENTITY % m{k} PUBLIC "-//M//{k}" "{name}">%m{k};')
    if random.random() < 0.3:
        files["cat.txt"] = 'PUBLIC " -//M//0 " "' + next(iter(files)) + '"\n'
        calls[0] = calls[0].replace(next(iter(files)), "../elsewhere.ent")
    files["m.dtd"] = first + "\n".join(calls) + maker.declaration()
    return files, ("cat.txt" if "cat.txt" in files else "-", "m.dtd")
