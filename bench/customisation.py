"""A house customisation in the manner of JATS, of any scale: modules, classes, mixes, models and attribute lists.

`files(scale)` gives `catalog.txt`, `house.dtd` and their modules. At scale 1 there are 62 modules of 1.7 MB with 500 elements,
4,700 attributes, 2,200 entities, 1.4 million pairs of names that may follow one another, and 2.7 million included characters.
There are 1,000 elements at most, so that above scale 2 it is the mixes that grow. All of it depends on the scale alone."""

import os

WORDS = ("address", "author", "award", "bold", "caption", "citation", "date", "display", "element", "figure", "funding",
         "graphic", "group", "history", "index", "issue", "journal", "keyword", "label", "list", "material", "media",
         "name", "note", "object", "page", "paragraph", "part", "permission", "person", "publisher", "quote", "related",
         "role", "section", "source", "string", "subject", "supplement", "table", "term", "title", "volume", "year")
TYPES = ("CDATA #IMPLIED", "ID #IMPLIED", "IDREF #IMPLIED", "IDREFS #IMPLIED", "NMTOKEN #IMPLIED", "NMTOKENS #IMPLIED",
         "(yes | no) 'no'", "(left | right | center) #IMPLIED", "CDATA #FIXED 'simple'", "CDATA 'a &amp; b'")
COMMENT = ("<!-- {} -->\n<!--                    The use of this declaration is told in the guide of the house; it is\n"
           "                        kept in the order of the base set, so that later changes can be followed. -->\n")


def names(count):
    """So many names of elements, all distinct."""
    return [f"{WORDS[k % len(WORDS)]}-{k}" for k in range(count)]


def title(text):
    return COMMENT.format(text.upper())


def identifier(name):
    return f"-//HOUSE//DTD {name} v1.0//EN"


def call(name, entity):
    """The declaration of a module as a parameter entity, and its reference."""
    return f'<!ENTITY % {entity} PUBLIC "{identifier(name)}" "{name}">\n%{entity};\n'


def classes(elements, width):
    """Parameter entities of classes: each names so many elements that follow one another."""
    text, count = "", max(1, len(elements) // width)
    for k in range(count):
        of_class = " | ".join(elements[k * width:(k + 1) * width])
        text += title(f"class {k}") + f'<!ENTITY % class-{k}.class "{of_class}">\n'
    return text, count


def mixes(count, of_classes, share):
    """Parameter entities of mixes: each joins so many classes."""
    text = ""
    for k in range(count):
        joined = " ".join(f"| %class-{(k + j) % of_classes}.class;" for j in range(share))
        text += title(f"mix {k}") + f'<!ENTITY % mix-{k} "{joined}">\n'
    return text


def common_attributes():
    lines = "".join(f"             common-{k} {TYPES[k % len(TYPES)]}\n" for k in (0, 2, 4, 6) if TYPES[k][:3] != "ID ")
    return title("attributes of all elements") + f'<!ENTITY % common-atts "\n{lines}">\n'


def attributes(name, k):
    """An attribute list: the common ones, one identifier, and some of its own."""
    own = "".join(f"             own-{j} {TYPES[j % len(TYPES)]}\n" for j in range(2, 5 + k % 3 + (k % 5 < 2)))
    return (f'<!ENTITY % {name}-atts "%common-atts;\n             id ID #IMPLIED\n{own}">\n'
            f"<!ATTLIST {name}\n             %{name}-atts;>\n")


def model(name, k, elements, mix_count, share):
    """A content: a mix with text or behind a first part, only text, or nothing."""
    if k % 12 == 5:
        return f"<!ELEMENT {name} EMPTY>\n"
    mix = f'<!ENTITY % {name}-elements "%mix-{k % mix_count};">\n'
    if k % 3 == 0:
        return mix + f"<!ELEMENT {name} (#PCDATA %{name}-elements;)*>\n"
    if k % 3 == 1:
        beyond = 5 * (k % mix_count + share)
        first, second, last = (elements[(beyond + j) % len(elements)] for j in range(3))
        return mix + f"<!ELEMENT {name} ({first}?, ({second} %{name}-elements;)*, {last}?)>\n"
    return f"<!ELEMENT {name} (#PCDATA)>\n"


def characters(first, count):
    """Entities of characters, a declaration a line, as in the sets of the standards bodies."""
    return "".join(f'<!ENTITY char{k:05d} "&#x{0x2100 + k % 4000:X};" > <!-- character {k} of the set -->\n'
                   for k in range(first, first + count))


def element_modules(elements, mix_count, share, modules):
    """The modules of elements: each element with its content and its attributes."""
    size = -(-len(elements) // modules)
    for m in range(modules):
        text = title(f"elements of module {m}")
        for k in range(m * size, min(len(elements), (m + 1) * size)):
            name = elements[k]
            text += 10 * title(f"{name}: what it holds and where it is used")
            text += model(name, k, elements, mix_count, share) + attributes(name, k)
        yield f"elements-{m}.ent", text


def files(scale):
    """Each file's name and text."""
    elements = names(min(1000, int(500 * scale)))
    mix_count, entities = 60, int(2200 * scale)
    class_text, class_count = classes(elements, 5)
    share = max(1, int(18 * max(1, scale / 2)))
    found = {"classes.ent": class_text, "mixes.ent": mixes(mix_count, class_count, share),
             "common.ent": common_attributes(),
             "custom-classes.ent": f'<!ENTITY % class-0.class "{elements[0]} | {elements[1]}">\n',
             "switches.ent": '<!ENTITY % with-drafts "IGNORE">\n<!ENTITY % with-notes "INCLUDE">\n',
             "drafts.ent": "<![%with-drafts;[\n<!ELEMENT draft EMPTY>\n<![%with-notes;[ ' ]]>\n]]>\n"}
    for s in range(26):
        found[f"characters-{s}.ent"] = characters(s * entities // 26, (s + 1) * entities // 26 - s * entities // 26)
    found.update(element_modules(elements, mix_count, share, 29))
    order = ["custom-classes.ent", "switches.ent", "classes.ent", "mixes.ent", "common.ent", "drafts.ent"]
    order += [name for name in found if name not in order]
    found["house.dtd"] = "".join(call(name, name.rsplit(".", 1)[0]) for name in order)
    found["catalog.txt"] = "".join(f'PUBLIC "{identifier(name)}" "{name}"\n' for name in order)
    root = elements[2]
    found["article.xml"] = f'<!DOCTYPE {root} SYSTEM "house.dtd">\n<{root}/>\n'
    return found


def more_attributes(found, elements, count):
    """Two modules more, which give each of so many elements so many attributes more."""
    lists = ["<!ATTLIST " + name + "".join(f" more-{j} CDATA #IMPLIED" for j in range(count)) + ">\n"
             for name in names(elements)]
    for name, part in (("more-0.ent", lists[::2]), ("more-1.ent", lists[1::2])):
        found[name] = "".join(part)
        found["house.dtd"] += call(name, name.rsplit(".", 1)[0])
        found["catalog.txt"] += f'PUBLIC "{identifier(name)}" "{name}"\n'
    return found


def write(folder, found):
    """Writes these files into the folder."""
    for name, text in found.items():
        with open(os.path.join(folder, name), "w", encoding="utf-8") as file:
            file.write(text)
