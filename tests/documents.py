"""Runs each example of the documents, compares what it prints with what the document shows, and looks whether the edits that
a document names are there.

An example is a line that begins with `$ `, indented by four spaces in Markdown, and the lines below it are its output, up to the
next such line or the end of the block. All examples of a document run in one folder, which has the commands and the examples.
"""

import os
import re
import subprocess
import sys
import tempfile

TOP = os.path.dirname(os.path.dirname(os.path.abspath(__file__)))
DOCUMENTS = ("README.md", "docs/REFUSALS.md", "docs/STUMBLES.md", "docs/RULES.md", "docs/tagset.1")
ESCAPES = (("\\-", "-"), ("\\(aq", "'"), ("\\(dq", '"'), ("\\e", "\\"))


def plain(line):
    """A line of a manual page as it is shown."""
    for mark, shown in ESCAPES:
        line = line.replace(mark, shown)
    return line


def blocks(name, text):
    """The lines of each block of examples."""
    if name.endswith(".1"):
        for block in re.findall(r"^\.EX\n(.*?)^\.EE$", text, re.DOTALL | re.MULTILINE):
            yield [plain(line) for line in block.splitlines()]
        return
    for block in re.findall(r"(?:^    .*\n)+", text, re.MULTILINE):
        yield [line[4:] for line in block.splitlines()]


def examples(name, text):
    """Each command with its output."""
    for block in blocks(name, text):
        command, output = None, []
        for line in block + ["$ "]:
            if line.startswith("$ "):
                if command:
                    yield command, output
                command, output = line[2:], []
            else:
                output.append(line)


def edits_named(text):
    """The edits that the last cells of tables name, each as CRATE/NAME; a name alone is of the crate before it."""
    for line in text.splitlines():
        crate = None
        for name in re.findall("`([a-z0-9_]+(?:/[a-z0-9_]+)?)`", line.rpartition(" | ")[2]) if line.startswith("|") else ():
            if "/" in name:
                crate, name = name.split("/")
            if crate:
                yield f"{crate}/{name}"


def as_at_the_top(folder):
    """The commands and the examples stand in the folder as at the top of the repository."""
    for name in ("tagset", "where"):
        path = os.path.join(folder, name)
        with open(path, "w", encoding="utf-8") as file:
            file.write(f"#!/bin/sh\nexec '{TOP}/{name}' \"$@\"\n")
        os.chmod(path, 0o755)
    subprocess.run(["cp", "-r", os.path.join(TOP, "examples"), folder], check=True)


def main():
    passed = failed = 0
    for name in DOCUMENTS:
        path = os.path.join(TOP, name)
        if not os.path.exists(path):
            continue
        with open(path, encoding="utf-8") as file, tempfile.TemporaryDirectory() as folder:
            as_at_the_top(folder)
            for command, output in examples(name, file.read()):
                run = subprocess.run(["bash", "-c", command], cwd=folder, capture_output=True, text=True)
                if run.stdout.splitlines() == output:
                    passed += 1
                else:
                    failed += 1
                    print(f"failed: {name}: {command}\n{run.stdout}wanted:\n" + "\n".join(output))
    with open(os.path.join(TOP, "docs", "BYTES.md"), encoding="utf-8") as file:
        for edit in edits_named(file.read()):
            crate, name = edit.split("/")
            if os.path.exists(os.path.join(TOP, "crates", crate, "must-fail", name + ".edit")):
                passed += 1
            else:
                failed += 1
                print(f"failed: docs/BYTES.md: there is no edit {edit}")
    print(f"examples of documents: {passed} passed, {failed} failed")
    return 1 if failed or not passed else 0


if __name__ == "__main__":
    sys.exit(main())
