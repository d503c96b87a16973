"""Times of `check` and `flatten` on generated customisations, beside xmllint and rxp where they are installed.

`python3 bench/speed.py PROGRAM` prints one line for each measurement: the least of five runs, in milliseconds, and the
most memory in megabytes. It judges nothing: read it."""

import os
import shutil
import subprocess
import sys
import tempfile
import time

import customisation

RUNS = 5
MODULE = 4_194_304


def run(words, folder):
    """Seconds, kilobytes and the answer of one run."""
    start = time.perf_counter()
    with tempfile.TemporaryFile() as out:
        process = subprocess.Popen(words, cwd=folder, stdout=out, stderr=subprocess.DEVNULL)
        _, status, usage = os.wait4(process.pid, 0)
        took = time.perf_counter() - start
        out.seek(0)
        return took, usage.ru_maxrss, os.waitstatus_to_exitcode(status), out.read()


def least(title, words, folder, against=None):
    """Prints the least time of some runs, and gives it."""
    found = [run(words, folder) for _ in range(RUNS)]
    took, size = min(it[0] for it in found), max(it[1] for it in found)
    answer = found[0][3].decode("utf-8", "replace").replace("\n", " ")[:70]
    ratio = f"  ratio {took / against:.2f}" if against else ""
    print(f"{title:44} {took * 1000:9.1f} ms {size / 1024:7.1f} MB  status {found[0][2]}{ratio}  {answer}", flush=True)
    return took


def beside(folder, program):
    """A set like JATS 1.3 beside the tools that read the same modules."""
    ours = least("check, catalog", [program, "check", "catalog.txt", "house.dtd"], folder)
    least("flatten, catalog", [program, "flatten", "catalog.txt", "house.dtd"], folder, ours)
    for tool, words in (("xmllint", ["--noout", "--loaddtd"]), ("xmllint", ["--noout", "--valid"]), ("rxp", ["-s", "-V"])):
        if shutil.which(tool) is None:
            print(f"{tool}: not installed, skipped", flush=True)
            continue
        theirs = least(" ".join([tool, *words]), [tool, *words, "article.xml"], folder)
        print(f"{'check, as a multiple of it':44} {ours / theirs:9.2f}")


def decoding(program):
    """What decoding 4 MB adds to reading them: one module is refused by its length alone, the other at its last byte."""
    line = b"<!ELEMENT emphasis-or-quotation (#PCDATA | bold | italic)*>\n"
    text = (MODULE // len(line) + 1) * line
    with tempfile.TemporaryDirectory() as folder:
        for name, content in (("long.dtd", text[:MODULE + 1]), ("last.dtd", text[:MODULE - 1] + b"\xff")):
            with open(os.path.join(folder, name), "wb") as file:
                file.write(content)
        reading = least("4 MB read, refused as too long", [program, "check", "-", "long.dtd"], folder)
        both = least("4 MB read and decoded, refused at the end", [program, "check", "-", "last.dtd"], folder)
    print(f"{'decoding alone':44} {MODULE / 1e6 / max(both - reading, 1e-9):9.0f} MB a second")


def growth(program):
    """The same set at four scales."""
    for scale in (0.5, 1, 2, 4):
        with tempfile.TemporaryDirectory() as folder:
            customisation.write(folder, customisation.files(scale))
            least(f"check at scale {scale}", [program, "check", "catalog.txt", "house.dtd"], folder)


def many_attributes(program):
    with tempfile.TemporaryDirectory() as folder:
        customisation.write(folder, customisation.more_attributes(customisation.files(1), 500, 191))
        least("check, 100,000 attributes", [program, "check", "catalog.txt", "house.dtd"], folder)


def doubled(count):
    text = '<!ENTITY % p0 "x">\n'
    text += "".join(f'<!ENTITY % p{k} "&#37;p{k - 1};&#37;p{k - 1};">\n' for k in range(1, count + 1))
    return text + f"<!ELEMENT r (%p{count};)>\n"


def bombs():
    """Each bomb's title and text."""
    yield "parameter entities doubled 30 times", doubled(30)
    yield "sections nested 100,000 deep", 100000 * "<![INCLUDE[" + 100000 * "]]>"
    yield "ignored sections nested 100,000 deep", "<![IGNORE[" + 100000 * "<![" + 100000 * "]]>" + "]]>"
    yield "a comment of 4 MB", "<!--" + 4194297 * "x" + "-->"
    yield "1,000 names under a star", "<!ELEMENT r (" + "|".join(f"n{k}" for k in range(1000)) + ")*>"
    lists = "".join(f"<!ATTLIST e{k % 500} a{k} CDATA 'value'>" for k in range(60000))
    yield "60,000 attributes of 500 elements", lists


def write_many(folder, count):
    """An entry with so many inner modules."""
    with open(os.path.join(folder, "m.dtd"), "w", encoding="ascii") as entry:
        for k in range(count):
            entry.write(f'<!ENTITY % m{k} SYSTEM "m{k}.ent">%m{k};\n')
            with open(os.path.join(folder, f"m{k}.ent"), "w", encoding="ascii") as inner:
                inner.write(f"<!ELEMENT e{k} EMPTY>\n")


def main():
    program = os.path.abspath(sys.argv[1])
    with tempfile.TemporaryDirectory() as folder:
        customisation.write(folder, customisation.files(1))
        beside(folder, program)
    decoding(program)
    growth(program)
    many_attributes(program)
    for title, text in bombs():
        with tempfile.TemporaryDirectory() as folder:
            with open(os.path.join(folder, "m.dtd"), "w", encoding="ascii") as entry:
                entry.write(text)
            least(title, [program, "check", "-", "m.dtd"], folder)
    with tempfile.TemporaryDirectory() as folder:
        write_many(folder, 1023)
        least("1,023 inner modules", [program, "check", "-", "m.dtd"], folder)


if __name__ == "__main__":
    main()
