"""Times and memory of the program on input that is made to cost much, command by command.

`python3 bench/bombs.py PROGRAM [WORD..]` prints one line for each input whose title holds all the words: seconds, megabytes, status and
answer of one run. It judges nothing; `docs/RULES.md` says what each may take."""

import json
import os
import subprocess
import sys
import tempfile

from speed import run

EMPTY = {"empty.ent": ""}
LONG = 'x' * 30_000


def doublings(count, kind="% ", sign="&#37;", leaf="x"):
    """Entities p0 to p(count), each but the first of which names the one before it twice."""
    lines = [f'<!ENTITY {kind}p0 "{leaf}">\n']
    lines += [f'<!ENTITY {kind}p{k} "{sign}p{k - 1};{sign}p{k - 1};">\n' for k in range(1, count + 1)]
    return "".join(lines)


def outer(count):
    """Entities o0, o1, .. for one empty file."""
    return "".join(f'<!ENTITY % o{k} SYSTEM "empty.ent">\n' for k in range(count))


def nested_names(names, calls):
    """So many references to an empty entity, under entities of these names that are open."""
    text, inner = '<!ENTITY % e "">\n', "&#37;e;" * calls
    for name in reversed(names):
        text += f'<!ENTITY % {name} "{inner}">\n'
        inner = f"&#37;{name};"
    return text + f"%{names[0]};\n"


# Two ways on at each of sixteen places, which leave a hasher that multiplies and folds with a fixed seed in one state.
SAME = """
9OOp 10000 hhZA bfa14, K9KP 10000 5yQ7 b79a4, 4mbm 10000 ldtm 59cc6, AF5y 10000 0f31 dcc11, sZxn 10000 Y7aI cfdef, eath 10000 cf7m 2658a,
Baup 10000 aydN 4abd3, F-la 10000 Xu1v 55190, JV4J 10000 6I07 97470, 7r_S 10000 ICI8 23494, tqWB 10000 gyST c30a6, _ram 10000 _2bp b320a,
qRPU 10000 Jg1Y 156fd, QUvx 10000 oqPL d0736, 57vx 10000 2UnH 22f50, _4sL 10000 AtdN 15ca6
"""


def same_names(count):
    """Names of 81 characters that such a hasher cannot tell apart."""
    ways = [part.split() for part in SAME.split(",")]
    pairs = [(one + chr(int(c, 16)), other + chr(int(d, 16))) for one, c, other, d in ways]
    return ["a" + "".join(pair[k >> place & 1] for place, pair in enumerate(pairs)) for k in range(count)]


def texts():
    """The title and the entry of each bomb of `check`."""
    for where, form in (("between declarations", "%p{};"), ("in a body", "<!ELEMENT a (%p{};)>"), ("in an entity value", '<!ENTITY a "%p{};">'),
                        ("in a keyword part", "<![%p{};[]]>")):
        for count in (30, 31):
            yield f"parameter entities doubled {count} times, {where}", doublings(count, leaf="") + form.format(count)
    yield "general entities doubled 30 times, in a default value", doublings(30, "", "&") + '<!ATTLIST a k CDATA "&p30;">'
    yield "16,000 outer entities of one file, in a body", outer(16_000) + "<!ELEMENT a (" + "".join(f"%o{k};" for k in range(16_000)) + "b)>"
    yield "40,000 references under 30 open names of 30,000 characters", nested_names([f"n{k}{LONG}" for k in range(30)], 40_000)
    short = nested_names([f"n{k}" for k in range(6)], 1)
    yield "millions of references under 31 open names", doublings(24, leaf="") + short.replace("&#37;e;", "&#37;p24;")
    many = doublings(11, leaf="a|" * 15_000)
    yield "a model of 30 million names", many + "<!ELEMENT a (%p11;b)>"
    yield "a mixed content of 30 million names", many + "<!ELEMENT a (#PCDATA|%p11;b)*>"
    yield "an enumeration of 30 million tokens", many + "<!ATTLIST a k (%p11;b) #IMPLIED>"
    yield "a notation type of 30 million names", many + "<!ATTLIST a k NOTATION (%p11;b) #IMPLIED>"
    yield "100,000 included sections in one another", "<![INCLUDE[" * 100_000 + "]]>" * 100_000
    yield "a content of 1,024 names under 64 signs each", "<!ELEMENT a " + "(" * 63 + "(" + "|".join(f"n{k}?" for k in range(1_024)) + ")?" + ")*" * 63 + ">"
    yield "1,024 elements of 124 names under a star", "".join(f"<!ELEMENT e{k} (" + "|".join(f"e{i}" for i in range(124)) + ")*>" for k in range(1_024))
    yield "100,000 attributes of one element", "<!ATTLIST a " + " ".join(f"k{k} CDATA #IMPLIED" for k in range(100_000)) + ">"
    yield "100,000 declarations of one attribute", "<!ATTLIST a k CDATA #IMPLIED>" * 100_000
    for kind, names in (("ordinary", [f"a{k:080}" for k in range(28_000)]), ("colliding", same_names(28_000))):
        yield f"28,000 general entities of {kind} names", "".join(f'<!ENTITY {name} "x">' for name in names)
        yield f"28,000 tokens of {kind} names", "<!ATTLIST a k (" + "|".join(names) + ") #IMPLIED>"
        yield f"28,000 attributes of {kind} names", "<!ATTLIST a " + " ".join(f"{name} CDATA #IMPLIED" for name in names) + ">"
    yield "150,000 general entities", "".join(f'<!ENTITY e{k} "x">' for k in range(150_000))


def sets():
    """The title, the files and the words of each other bomb."""
    for title, text in texts():
        yield title, {"m.dtd": text, **EMPTY}, "check - m.dtd"
    long = "d/" + "x" * 200 + "/" + "y" * 200 + ".ent"
    yield "80,000 outer entities of a module with a long name", {"m.dtd": f'<!ENTITY % m SYSTEM "{long}">%m;', long: outer(80_000)}, "check - m.dtd"
    modules = {f"m{k}.ent": "" for k in range(1_023)}
    yield "1,023 modules", {"m.dtd": "".join(f'<!ENTITY % m{k} SYSTEM "m{k}.ent">%m{k};' for k in range(1_023)), **modules}, "check - m.dtd"
    one = "<!ELEMENT r (" + "|".join(f"a{k}" for k in range(1_023)) + ")*>" + "".join(f"<!ELEMENT a{k} EMPTY>" for k in range(1_023))
    yield "a million pairs", {"m.dtd": one, "n.dtd": one.replace(")*>", ")+>")}, "compare - m.dtd - n.dtd r 2000"
    flat = "<!ELEMENT r ANY>"
    yield "an article of 30 MB of one text", {"m.dtd": flat, "a.xml": "<r>" + "x" * 30_000_000 + "</r>"}, "validate - m.dtd r a.xml"
    yield "an article of 8 million empty elements", {"m.dtd": flat, "a.xml": "<r>" + "<r/>" * 8_000_000 + "</r>"}, "validate - m.dtd r a.xml"
    yield "an article of 30 MB of <", {"m.dtd": flat, "a.xml": "<" * 30_000_000}, "validate - m.dtd r a.xml"
    yield "an article with an entity doubled 22 times", {"m.dtd": flat + doublings(22, "", "&", "x" * 16), "a.xml": "<r>&p22;</r>"}, "validate - m.dtd r a.xml"
    yield "1,000,000 references to an empty entity", {"m.dtd": flat + '<!ENTITY e "">', "a.xml": "<r>" + "&e;" * 1_000_000 + "</r>"}, "validate - m.dtd r a.xml"
    yield "a tag with 10,000 attributes", {"m.dtd": flat + "<!ATTLIST r " + " ".join(f"k{k} CDATA 'v'" for k in range(10_000)) + ">",
                                           "a.xml": "<r" + "".join(f' k{k}="v"' for k in range(10_000)) + "/>"}, "validate - m.dtd r a.xml"
    yield "2,000 tags with 1,000 attributes", {"m.dtd": flat + "<!ATTLIST r " + " ".join(f"k{k} CDATA 'v'" for k in range(1_000)) + ">",
                                               "a.xml": "<r>" + ("<r" + "".join(f' k{k}="v"' for k in range(1_000)) + "/>") * 2_000 + "</r>"}, "validate - m.dtd r a.xml"
    yield "1,000,000 IDs", {"m.dtd": flat + "<!ATTLIST r i ID #IMPLIED>", "a.xml": "<r>" + "".join(f'<r i="i{k}"/>' for k in range(1_000_000)) + "</r>"}, "validate - m.dtd r a.xml"
    deep = "".join(f"<!ENTITY e{k} '{'<r>' * 64}&#38;e{k + 1};{'</r>' * 64}'>" for k in range(31)) + "<!ENTITY e31 ''>"
    yield "2,048 open elements under 32 open entities", {"m.dtd": flat + deep, "a.xml": "<r>" * 64 + "&e0;" + "</r>" * 64}, "validate - m.dtd r a.xml"
    chain = "".join(f"<!ELEMENT e{k} (e{k + 1},e{k + 1})>" for k in range(16)) + "<!ELEMENT e16 EMPTY>"
    yield "a least article of 100,000 elements at most", {"m.dtd": chain}, "least - m.dtd e1 100000"
    wide = "<!ELEMENT r (" + ",".join(["m"] * 99) + ")><!ELEMENT m (" + ",".join(["c"] * 500) + ")><!ELEMENT c (" + "|".join(f"a{k}" for k in range(1000)) + ")>"
    leaves = "".join(f"<!ELEMENT a{k} (z)>" for k in range(999)) + "<!ELEMENT a999 EMPTY><!ELEMENT z EMPTY>"
    yield "a least article of 99,100 elements, half of them with a choice of 1,000", {"m.dtd": wide + leaves}, "least - m.dtd r 100000"
    yield "a separating article of 65,535 elements", {"m.dtd": chain.replace("e16 EMPTY", "e16 (#PCDATA)"), "n.dtd": chain}, "compare - m.dtd - n.dtd e1 100000"
    lines = ["certificate 1 r 0", "element r 1 inf", "state 0 0 inf"]
    yield "a certificate of 268 MB", {"m.dtd": flat, "c.txt": lambda: (b"x" * 99 + b"\n") * 2_684_354 + ("\n".join(lines) + "\npair 0 0 inf\nend\n").encode()[:56]}, "verify c.txt - m.dtd - m.dtd"
    yield "work 1000", {}, "work 1000"


def write(folder, files):
    for name, content in files.items():
        path = os.path.join(folder, name)
        os.makedirs(os.path.dirname(path), exist_ok=True)
        content = content() if callable(content) else content.encode()
        with open(path, "wb") as file:
            file.write(content)


def serve():
    """Runs what is asked for, line by line. A process that is small starts the program, whose memory would else count that of this one."""
    for line in sys.stdin:
        words, folder = json.loads(line)
        took, size, status, answer = run(words, folder)
        print(json.dumps([took, size, status, answer[:60].decode("utf-8", "replace")]), flush=True)


def main():
    if sys.argv[1:] == ["serve"]:
        return serve()
    program, wanted = os.path.abspath(sys.argv[1]), sys.argv[2:]
    runner = subprocess.Popen([sys.executable, __file__, "serve"], stdin=subprocess.PIPE, stdout=subprocess.PIPE, text=True)
    for title, files, words in sets():
        if not all(word in title for word in wanted):
            continue
        with tempfile.TemporaryDirectory() as folder:
            write(folder, files)
            print(json.dumps([[program, *words.split(" ")], folder]), file=runner.stdin, flush=True)
            took, size, status, answer = json.loads(runner.stdout.readline())
            shown = answer.replace("\n", " ")
            print(f"{title:58} {took:7.2f} s {size / 1024:7.0f} MB  status {status}  {shown}", flush=True)


if __name__ == "__main__":
    main()
