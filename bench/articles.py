#!/usr/bin/env python3
"""Makes a tag set and an article of so many megabytes, and measures `validate` and `fill` beside a validating parser.

    bench/articles.py make FOLDER MEGABYTES [text]     writes set.dtd and article.xml; with `text`, long text with few tags
    bench/articles.py make FOLDER MEGABYTES house      writes a customisation in the manner of JATS, and an article of it
    bench/articles.py time FOLDER                      ratios to xmllint --valid, and to rxp where it is installed
"""

import random
import shutil
import subprocess
import sys
import time
from pathlib import Path

import customisation

TOP = Path(__file__).resolve().parents[1]
WORDS = "the of set tag text model article figure method result value table study sample effect cell".split()

SET = """<!ELEMENT article (front,body,back?)>
<!ATTLIST article article-type CDATA "research" lang NMTOKEN "en">
<!ELEMENT front (title,author+)>
<!ELEMENT title (#PCDATA|italic)*>
<!ELEMENT author (given?,surname)>
<!ELEMENT given (#PCDATA)>
<!ELEMENT surname (#PCDATA)>
<!ELEMENT body (sec+)>
<!ELEMENT sec (title,(p|fig)*)>
<!ATTLIST sec id ID #REQUIRED lang NMTOKEN "en">
<!ELEMENT p (#PCDATA|italic|xref)*>
<!ATTLIST p id ID #IMPLIED>
<!ELEMENT italic (#PCDATA)>
<!ELEMENT xref (#PCDATA)>
<!ATTLIST xref rid IDREF #REQUIRED kind (fig|sec|ref) "ref">
<!ELEMENT fig (title,graphic)>
<!ATTLIST fig id ID #REQUIRED>
<!ELEMENT graphic EMPTY>
<!ATTLIST graphic href CDATA #REQUIRED format NMTOKEN #FIXED "tiff">
<!ELEMENT back (ref+)>
<!ELEMENT ref (#PCDATA|italic)*>
<!ATTLIST ref id ID #REQUIRED>
"""


def words(rng, count):
    return " ".join(rng.choice(WORDS) for _ in range(count))


def paragraph(rng, refs, long):
    if long:
        return f"<p>{words(rng, 2000)}</p>\n"
    return (f"<p>{words(rng, 20)} <italic>{words(rng, 2)}</italic> {words(rng, 12)}"
            f'<xref rid="r{rng.randrange(refs)}" kind="ref">{rng.randrange(99)}</xref> {words(rng, 15)}&amp;.</p>\n')


def section(rng, number, refs, long):
    parts = "".join(paragraph(rng, refs, long) for _ in range(20))
    figure = f'<fig id="f{number}"><title>{words(rng, 6)}</title><graphic href="f{number}.tif"/></fig>\n'
    return f'<sec id="s{number}"><title>{words(rng, 4)}</title>\n{parts}{figure}</sec>\n'


def make(folder, megabytes, long):
    rng = random.Random(7)
    refs = max(10, megabytes * 200)
    folder.mkdir(parents=True, exist_ok=True)
    (folder / "set.dtd").write_text(SET)
    size, number = 0, 0
    with open(folder / "article.xml", "w") as out:
        out.write('<!DOCTYPE article SYSTEM "set.dtd">\n<article><front><title>T</title><author><surname>S</surname></author></front><body>\n')
        while size < megabytes * 1000000 - refs * 60:
            text = section(rng, number, refs, long)
            out.write(text)
            size += len(text)
            number += 1
        out.write("</body><back>" + "".join(f'<ref id="r{k}">{words(rng, 6)}</ref>' for k in range(refs)) + "</back></article>\n")


def in_mix(k, share):
    """The elements that the content of the k-th element of the customisation names, of those that are made: mixed, text or empty."""
    count = 100
    for j in range(share):
        of_class = (k % 60 + j) % count
        for child in (0, 1) if of_class == 0 else range(5 * of_class, 5 * of_class + 5):
            if child % 3 != 1 or child % 12 == 5:
                yield child


class House:
    """Random elements of the customisation, with some of its attributes."""

    def __init__(self):
        self.rng, self.names, self.ids = random.Random(5), customisation.names(500), 0

    def attributes(self):
        text = ""
        if self.rng.random() < 0.3:
            self.ids += 1
            text += f' id="i{self.ids}"'
        return text + (' common-0="x y"' if self.rng.random() < 0.3 else "")

    def element(self, k, depth):
        name, tag = self.names[k], self.names[k] + self.attributes()
        if k % 12 == 5:
            return f"<{tag}/>"
        if k % 3 == 2:
            return f"<{tag}>{words(self.rng, self.rng.randrange(3, 12))}</{name}>"
        parts, inner = [words(self.rng, self.rng.randrange(2, 10))], list(in_mix(k, 18))
        for _ in range(self.rng.randrange(1, 5) if depth > 0 else 0):
            parts += [self.element(self.rng.choice(inner), depth - 1), words(self.rng, self.rng.randrange(2, 10))]
        return f"<{tag}>{' '.join(parts)}</{name}>"


def make_house(folder, megabytes):
    folder.mkdir(parents=True, exist_ok=True)
    customisation.write(folder, customisation.files(1))
    house, inner, size = House(), list(in_mix(0, 18)), 0
    with open(folder / "article.xml", "w") as out:
        out.write(f'<!DOCTYPE {house.names[0]} SYSTEM "house.dtd">\n<{house.names[0]}>')
        while size < megabytes * 1000000:
            text = house.element(house.rng.choice(inner), 4) + "\n"
            out.write(text)
            size += len(text)
        out.write(f"</{house.names[0]}>\n")


def least(command, folder):
    times = []
    for _ in range(5):
        start = time.perf_counter()
        done = subprocess.run(command, cwd=folder, stdout=subprocess.DEVNULL, stderr=subprocess.DEVNULL)
        times.append(time.perf_counter() - start)
    return min(times), done.returncode


def measure(folder):
    program = str(TOP / "tagset")
    size = (folder / "article.xml").stat().st_size / 1e6
    house = (folder / "house.dtd").exists()
    entry, root = (["catalog.txt", "house.dtd"], customisation.names(1)[0]) if house else (["-", "set.dtd"], "article")
    commands = {
        "validate": [program, "validate", *entry, root, "article.xml"],
        "fill": [program, "fill", *entry, "article.xml"],
    }
    for name, command in (("xmllint", ["xmllint", "--huge", "--noout", "--valid", "article.xml"]), ("rxp", ["rxp", "-Vs", "article.xml"])):
        if shutil.which(name):
            commands[name] = command
    taken = {name: least(command, folder) for name, command in commands.items()}
    for name, (seconds, status) in taken.items():
        ratios = ", ".join(f"{seconds / taken[other][0]:.2f} times {other}" for other in ("xmllint", "rxp") if other in taken and other != name)
        print(f"{name}: {seconds * 1000:.0f} ms, {size / seconds:.1f} MB/s, status {status}; {ratios}")


def main():
    if sys.argv[1:2] == ["make"] and "house" in sys.argv[4:]:
        make_house(Path(sys.argv[2]), int(sys.argv[3]))
    elif sys.argv[1:2] == ["make"]:
        make(Path(sys.argv[2]), int(sys.argv[3]), "text" in sys.argv[4:])
    elif sys.argv[1:2] == ["time"]:
        measure(Path(sys.argv[2]))
    else:
        sys.exit(__doc__)


if __name__ == "__main__":
    main()
