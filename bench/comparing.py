"""Times of `compare`, `report`, `least` and `verify` on generated customisations, as multiples of `check` of one set.

`python3 bench/comparing.py PROGRAM` prints one line for each measurement, as `bench/speed.py` does. It judges nothing."""

import os
import sys
import tempfile

import customisation
from speed import least, run

CAP = "1000"


def another(found, change):
    """The same files under names of their own, with each module changed."""
    marked = {name: f"other-{name}" for name in found}
    text = {}
    for name, content in found.items():
        content = change(name, content)
        if name == "catalog.txt":
            for old, new in marked.items():
                content = content.replace(f' "{old}"\n', f' "{new}"\n')
        text[marked[name]] = content
    return text


def same(name, text):
    return text


def one_attribute(name, text):
    """One attribute of one element may have fewer values."""
    return text.replace("(left | right | center)", "(left | right)", 1) if name == "elements-0.ent" else text


def many_elements(name, text):
    """Every second element with text only is empty, and every third with an end part lacks it."""
    if not name.startswith("elements-"):
        return text
    text = text.replace("(#PCDATA)>", "EMPTY>")
    return text.replace(")*, ", ")*, (", 2).replace("?)>", "?))>", 2) if name.endswith("3.ent") else text


VARIANTS = (("itself", same), ("one attribute", one_attribute), ("many elements", many_elements))


def variants(program):
    base = customisation.files(1)
    root = customisation.names(4)[3]
    for title, change in VARIANTS:
        with tempfile.TemporaryDirectory() as folder:
            customisation.write(folder, base | another(base, change))
            first, second = ["catalog.txt", "house.dtd"], ["other-catalog.txt", "other-house.dtd"]
            check = least("check", [program, "check", *first], folder)
            least(f"against {title}: report", [program, "report", *first, *second, root], folder, check)
            words = [*first, *second, root]
            least(f"against {title}: compare, cap {CAP}", [program, "compare", *words, CAP], folder, check)
            least(f"against {title}: compare, cap 0", [program, "compare", *words, "0"], folder, check)
            with open(os.path.join(folder, "cert.txt"), "wb") as file:
                file.write(run([program, "compare", *words, CAP], folder)[3])
            least(f"against {title}: verify", [program, "verify", "cert.txt", *first, *second], folder, check)


def pairs(program):
    """Contents of 1,023 and 1,024 names under a star: 1,047,553 pairs of states."""
    with tempfile.TemporaryDirectory() as folder:
        for name, count in (("m.dtd", 1023), ("n.dtd", 1024)):
            with open(os.path.join(folder, name), "w", encoding="ascii") as file:
                file.write("<!ELEMENT p EMPTY><!ELEMENT x (" + ",".join(["p"] * count) + ")*>")
        least("compare, 1,047,553 pairs", [program, "compare", "-", "m.dtd", "-", "n.dtd", "x", "2000"], folder)


def main():
    program = os.path.abspath(sys.argv[1])
    variants(program)
    pairs(program)


if __name__ == "__main__":
    main()
