"""The program under devices that fail, with little memory, and with input that is cut off.

Each case runs the built program: `./tagset`'s, or what the variable TAGSET names."""

import os
import resource
import shutil
import signal
import subprocess
import sys
import tempfile
import threading
from pathlib import Path

from rows.program import TOP, built_program

HOUSE = TOP / "examples" / "house"
SECONDS = 120
COMPARE = ["compare", "-", "base.dtd", "catalog.txt", "house.dtd", "article", "100"]


class Count:
    def __init__(self):
        self.passed = self.failed = 0

    def case(self, name, fault):
        """One case: it is passed where nothing is wrong with it."""
        if fault is None:
            self.passed += 1
        else:
            self.failed += 1
            print(f"failed: {name}: {fault}", flush=True)


def run(program, words, folder, before=None, out=subprocess.PIPE):
    """The status and the output; the call `before` is made in the new process."""
    done = subprocess.run([program, *words], cwd=folder, stdin=subprocess.DEVNULL, stdout=out,
                          stderr=subprocess.DEVNULL, timeout=SECONDS, preexec_fn=before)
    return done.returncode, done.stdout


def differs(got, status, output):
    return None if got == (status, output) else f"status {got[0]}, output {got[1] and got[1][:200]!r}, wanted {status}, {output and output[:200]!r}"


def as_nobody():
    """Root may read any file, so a test of permissions gives its rights up."""
    if os.getuid() == 0:
        os.setgid(65534)
        os.setuid(65534)


def copy_of(folder, *names):
    for name in names:
        Path(folder, name).write_bytes((HOUSE / name).read_bytes())


def copy_of_house(folder):
    copy_of(folder, *[path.name for path in HOUSE.iterdir()])


# Files that are no plain files


def fed(path, pieces):
    """Writes the pieces into a pipe, each after the last is taken."""
    def feed():
        with open(path, "wb", buffering=0) as pipe:
            for piece in pieces:
                pipe.write(piece)
    thread = threading.Thread(target=feed, daemon=True)
    thread.start()
    return thread


def unreadable(program, folder):
    """The program stands beside the file, since whoever gives their rights up may not reach it elsewhere."""
    beside = shutil.copy(program, folder)
    os.chmod(beside, 0o755)
    try:
        return differs(run(beside, ["check", "-", "closed.dtd"], folder, as_nobody), 4, b"")
    except PermissionError:
        print("a file that may not be read: not tried, since no other user reaches the folder of temporary files", flush=True)
        return None


def strange_files(program, count):
    good = b"ok\nelements 1\nattributes 0\nentities 0\nnotations 0\n"
    with tempfile.TemporaryDirectory() as folder:
        os.chmod(folder, 0o755)
        Path(folder, "closed.dtd").write_bytes(b"<!ELEMENT a EMPTY>")
        os.chmod(Path(folder, "closed.dtd"), 0)
        os.mkdir(Path(folder, "folder.dtd"))
        os.symlink("/dev/zero", Path(folder, "endless.dtd"))
        os.symlink("nothing", Path(folder, "dangling.dtd"))
        os.mkfifo(Path(folder, "pipe.dtd"))
        count.case("a file that may not be read", unreadable(program, folder))
        count.case("a folder in a file's place", differs(run(program, ["check", "-", "folder.dtd"], folder), 4, b""))
        count.case("a file without an end", differs(run(program, ["check", "-", "endless.dtd"], folder), 2, b"refused E11 ModuleLong endless.dtd 0\n"))
        count.case("a link to nothing", differs(run(program, ["check", "-", "dangling.dtd"], folder), 2, b"refused E10 ModuleAbsent dangling.dtd 0\n"))
        thread = fed(Path(folder, "pipe.dtd"), [b"<!ELEMENT", b" a ", b"EMPTY>"])
        count.case("a pipe in a file's place", differs(run(program, ["check", "-", "pipe.dtd"], folder), 0, good))
        thread.join(10)


# Outputs that fail or take little


def limited_to(size):
    """A file of the process may have this many bytes: a write takes what still fits, and the next one fails."""
    def before():
        signal.signal(signal.SIGXFSZ, signal.SIG_IGN)
        resource.setrlimit(resource.RLIMIT_FSIZE, (size, size))
    return before


def written(program, words, folder, before):
    with tempfile.TemporaryFile() as out:
        status, _ = run(program, words, folder, before, out)
        out.seek(0)
        return status, out.read()


def strange_outputs(program, count):
    with tempfile.TemporaryDirectory() as folder:
        copy_of_house(folder)
        status, whole = run(program, COMPARE, folder)
        count.case("the whole answer", None if status == 1 and whole.endswith(b"\n") else f"status {status}")
        for size in (0, 1, 10, len(whole) // 2, len(whole) - 1):
            count.case(f"a file of {size} bytes at most", differs(written(program, COMPARE, folder, limited_to(size)), 5, whole[:size]))
        for size in (len(whole), len(whole) + 1):
            count.case(f"a file of {size} bytes at most", differs(written(program, COMPARE, folder, limited_to(size)), 1, whole))
        with open("/dev/full", "wb") as full:
            count.case("a full device", differs(run(program, COMPARE, folder, None, full), 5, None))
        count.case("a closed output", differs(run(program, COMPARE, folder, lambda: os.close(1)), 5, b""))
        count.case("a slow pipe", differs(slowly(program, ["flatten", "catalog.txt", "house.dtd"], folder), 0, (HOUSE / "flat.dtd").read_bytes()))


def slowly(program, words, folder):
    """What comes out of a pipe of one page that is read seven bytes at a time."""
    import fcntl
    read_end, write_end = os.pipe()
    fcntl.fcntl(write_end, 1031, 4096)
    process = subprocess.Popen([program, *words], cwd=folder, stdin=subprocess.DEVNULL, stdout=write_end, stderr=subprocess.DEVNULL)
    os.close(write_end)
    pieces = []
    while piece := os.read(read_end, 7):
        pieces.append(piece)
    os.close(read_end)
    return process.wait(SECONDS), b"".join(pieces)


# Little memory


def with_memory(size):
    return lambda: resource.setrlimit(resource.RLIMIT_AS, (size, size))


def little_memory(program, count):
    """Under each bound of memory the answer is the one that ample memory gives, or status 6 with nothing written."""
    certificate = None
    with tempfile.TemporaryDirectory() as folder:
        copy_of_house(folder)
        certificate = run(program, COMPARE, folder)[1]
        Path(folder, "cert.txt").write_bytes(certificate)
        for words in (COMPARE, ["validate", "catalog.txt", "house.dtd", "article", "valid.xml"], ["fill", "catalog.txt", "house.dtd", "valid.xml"],
                      ["verify", "cert.txt", *COMPARE[1:5]], ["flatten", "catalog.txt", "house.dtd"]):
            whole = run(program, words, folder)
            refused = 0
            for size in range(2_000_000, 9_000_000, 16_384):
                status, output = run(program, words, folder, with_memory(size))
                if (status, output) == (6, b""):
                    refused += 1
                elif (status, output) != whole and status not in (127, -signal.SIGSEGV, -signal.SIGKILL):
                    count.case(f"{words[0]} with {size} bytes", f"status {status}, output {output[:200]!r}")
            count.case(f"{words[0]} with little memory: {refused} times status 6", None if refused else "memory never ran out")


# Input that is cut off


def outside_quotes(text):
    """Whether the end of the text stands outside quotes of a declaration."""
    quote, inside = "", False
    for c in text:
        if quote:
            quote = "" if c == quote else quote
        elif inside and c in "\"'":
            quote = c
        elif c == "<":
            inside = True
        elif c == ">":
            inside = False
    return not quote and not inside


def cut_sets(program, count):
    text = (HOUSE / "flat.dtd").read_text(encoding="utf-8")
    lines = text.splitlines(keepends=True)
    starts = [sum(map(len, lines[:k])) for k in range(len(lines))]
    with tempfile.TemporaryDirectory() as folder:
        for end in range(0, len(text), 3):
            front = text[:end]
            Path(folder, "cut.dtd").write_text(front, encoding="utf-8")
            status, output = run(program, ["check", "-", "cut.dtd"], folder)
            if outside_quotes(front):
                fault = None if output.startswith(b"ok\n") else output
            else:
                start = max(k for k in starts if k < end)
                fault = differs((status, output), 2, f"refused E20 Malformed cut.dtd {start}\n".encode())
            count.case(f"a flat set cut at {end}", fault)


def cut_number(front):
    """The refusal of the front of an article: its last character, its text declaration, or its grammar."""
    try:
        text = front.decode("utf-8")
    except UnicodeDecodeError:
        return "E13"
    return "E15" if text.startswith("<?xml ") and "?>" not in text else "E60"


def cut_articles(program, count):
    data = (HOUSE / "valid.xml").read_bytes().strip()
    with tempfile.TemporaryDirectory() as folder:
        copy_of_house(folder)
        for end in range(0, len(data), 2):
            Path(folder, "cut.xml").write_bytes(data[:end])
            status, output = run(program, ["validate", "catalog.txt", "house.dtd", "article", "cut.xml"], folder)
            wanted = f"refused {cut_number(data[:end])} ".encode()
            count.case(f"an article cut at {end}", None if status == 2 and output.startswith(wanted) else f"status {status}, output {output!r}")


def cut_certificates(program, count):
    data = (TOP / "examples" / "subset.txt").read_bytes()
    data = data[:data.index(b"\nend\n") + 4]
    with tempfile.TemporaryDirectory() as folder:
        for name in ("first.dtd", "second.dtd"):
            Path(folder, name).write_bytes((TOP / "examples" / name).read_bytes())
        for end in range(len(data)):
            Path(folder, "cut.txt").write_bytes(data[:end])
            status, output = run(program, ["verify", "cut.txt", "-", "second.dtd", "-", "first.dtd"], folder)
            good = status == 2 and output.startswith(b"refused E70 CertMalformed cut.txt ")
            count.case(f"a certificate cut at {end}", None if good else f"status {status}, output {output!r}")


def main():
    program = built_program(direct=True)
    count = Count()
    for part in (strange_files, strange_outputs, little_memory, cut_sets, cut_articles, cut_certificates):
        part(program, count)
    print(f"hostile use: {count.passed} passed, {count.failed} failed")
    return 1 if count.failed or not count.passed else 0


if __name__ == "__main__":
    sys.exit(main())
