"""Places of refusals by `where`: by hand, and over texts that are made piece by piece with what an editor would count."""

import os
import random
import subprocess
import sys
import tempfile

TOP = os.path.dirname(os.path.dirname(os.path.abspath(__file__)))
MARK = b"\xef\xbb\xbf"
BY_HAND = (
    ("plain", b"<!ELEMENT a EMPTY>\n<!ELEMENT a ANY>\n", ["19"], "line 2, column 1\n<!ELEMENT a ANY>\n^\n"),
    ("end", b"ab\n", ["3"], "line 2, column 1\n\n^\n"),
    ("mark", MARK + b"ab\ncd", ["4"], "line 2, column 2\ncd\n ^\n"),
    ("declaration", b"<?xml version='1.0'?>\nab", ["2"], "line 2, column 2\nab\n ^\n"),
    ("declaration on one line", b"<?xml encoding='UTF-8'?>ab", ["1"], "line 1, column 26\n<?xml encoding='UTF-8'?>ab\n" + " " * 25 + "^\n"),
    ("no declaration", b"<?xmlx?>\nab", ["9"], "line 2, column 1\nab\n^\n"),
    ("mark and declaration", MARK + b"<?xml version='1.1'\n?>\r\nab", ["1"], "line 3, column 1\nab\n^\n"),
    ("pairs of line ends", b"a\r\nb\r\nc", ["4"], "line 3, column 1\nc\n^\n"),
    ("lone returns", b"a\rb\rc", ["4"], "line 3, column 1\nc\n^\n"),
    ("two, three and four bytes", "é€😀x\nyé€z".encode(), ["8"], "line 2, column 4\nyé€z\n   ^\n"),
    ("tabs", b"\t\tx", ["2"], "line 1, column 3\n\t\tx\n\t\t^\n"),
    ("byte", "é€x".encode() + b"\xff" + b"y\n", ["6", "bytes"], "line 1, column 4\né€x\n   ^\n"),
    ("line", MARK + b"<?xml version='1.0'?>\r\nab\rcd\n", ["3", "line"], "line 3, column 1\ncd\n^\n"),
    ("first line", b"ab", ["1", "line"], "line 1, column 1\nab\n^\n"),
    ("element", b"<a>\n<b/><c>\n", ["3", "element"], "line 2, column 5\n<b/><c>\n    ^\n"),
    (
        "element behind what is none",
        b"<?xml version='1.0'?>\n<!DOCTYPE a SYSTEM 'a'><!--<x>--><a t='>'>&lt;\n<![CDATA[<y>]]><?p <z>?></b><c/>",
        ["2", "element"],
        "line 3, column 29\n<![CDATA[<y>]]><?p <z>?></b><c/>\n" + " " * 28 + "^\n",
    ),
    ("byte behind a mark", MARK + b"a\nb\x01c", ["6", "bytes"], "line 2, column 2\nb\x01c\n ^\n"),
)
LINE_ENDS = ("\n", "\r\n", "\r")


def asked(folder, data, words):
    with open(os.path.join(folder, "file"), "wb") as file:
        file.write(data)
    run = subprocess.run([os.path.join(TOP, "where"), "file", *words], cwd=folder, capture_output=True)
    return run.returncode, run.stdout.decode()


def made(chance):
    """Bytes of a text, and the line and column of each of its places, counted while it is made."""
    data = MARK if chance.random() < 0.5 else b""
    line, column, places, before = 1, 1, [], ""
    if chance.random() < 0.5:
        declaration = f"<?xml version='1.{chance.randrange(10)}'?>"
        data, column = data + declaration.encode(), column + len(declaration)
    for _ in range(chance.randrange(30)):
        piece = chance.choice(("a", "<", "é", "€", "😀", *LINE_ENDS))
        if before == "\r" and piece == "\n":
            continue
        places.append((line, column))
        data, before = data + piece.encode(), piece
        line, column = (line + 1, 1) if piece in LINE_ENDS else (line, column + 1)
    return data, places + [(line, column)]


def main():
    passed = failed = 0
    chance = random.Random(20)
    with tempfile.TemporaryDirectory() as folder:
        cases = [(name, data, words, want) for name, data, words, want in BY_HAND]
        for number in range(20):
            data, places = made(chance)
            cases += [(f"made {number}", data, [str(k)], f"line {line}, column {column}\n") for k, (line, column) in enumerate(places)]
        for name, data, words, want in cases:
            status, output = asked(folder, data, words)
            if status == 0 and output.startswith(f"file, {want}"):
                passed += 1
            else:
                failed += 1
                print(f"failed: {name} {words}: status {status}, output: {output!r}, wanted: {want!r}")
        for data, words, want in ((b"ab", ["3"], 1), (b"ab", ["3", "bytes"], 1), (b"ab", ["2", "line"], 1), (b"ab", ["0", "line"], 1), (b"<a>", ["2", "element"], 1), (b"<a>", ["0", "element"], 1), (b"ab", ["x"], 2), (b"ab", [], 2), (b"ab", ["1", "b"], 2)):
            status, output = asked(folder, data, words)
            if (status, output) == (want, ""):
                passed += 1
            else:
                failed += 1
                print(f"failed: {data!r} {words}: status {status}, output: {output!r}, wanted status: {want}")
    print(f"places in editors: {passed} passed, {failed} failed")
    return 1 if failed else 0


if __name__ == "__main__":
    sys.exit(main())
