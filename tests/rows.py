"""Runs the table of rows on the program: status and output of each, to the byte but where a row says less.

The program is ./tagset at the top of the repository, or what the variable TAGSET names. Words choose the rows whose names
hold all of them."""

import subprocess
import sys
import tempfile
from concurrent.futures import ThreadPoolExecutor
from pathlib import Path

from rows import table
from rows.form import Begun, Certified, certificate_fault, verified
from rows.program import built_program

SECONDS = 120
WORKERS = 4


def as_bytes(content):
    if callable(content):
        content = content()
    return content.encode("utf-8") if isinstance(content, str) else content


def write_files(folder, files):
    for name, content in files.items():
        path = Path(folder, name)
        path.parent.mkdir(parents=True, exist_ok=True)
        path.write_bytes(as_bytes(content))


def shown(data):
    return repr(data if len(data) <= 300 else data[:300] + b"...")


def answer(program, files, words):
    """The status and the output of the program beside these files, or None where there is no answer in time."""
    words = words.split(" ") if isinstance(words, str) else words
    with tempfile.TemporaryDirectory() as folder:
        write_files(folder, files)
        try:
            done = subprocess.run([program, *words], cwd=folder, stdin=subprocess.DEVNULL,
                                  stdout=subprocess.PIPE, stderr=subprocess.PIPE, timeout=SECONDS)
        except subprocess.TimeoutExpired:
            return None
    return done.returncode, done.stdout


def output_fault(program, row, output):
    """What is wrong with this output of the row, or None."""
    if isinstance(row, Begun):
        return None if output.startswith(as_bytes(row.beginning)) else f"wanted in front {row.beginning!r}"
    if isinstance(row, Certified):
        fault = certificate_fault(row, output.decode("utf-8", "replace"))
        return fault or failure(program, verified(row, output, row.claim))
    wanted = as_bytes(row.output)
    return None if output == wanted else f"wanted output {shown(wanted)}"


def failure(program, row):
    """What is wrong with the row, or None."""
    found = answer(program, row.files, row.words)
    if found is None:
        return f"no answer in {SECONDS} seconds"
    status, output = found
    wrong = f"wanted status {row.status}" if status != row.status else output_fault(program, row, output)
    return None if wrong is None else f"status {status}, output {shown(output)}; {wrong}"


def repeated(rows):
    names = [row.name for row in rows]
    return sorted({name for name in names if names.count(name) > 1})


def chosen(words):
    return [row for row in table() if all(word in row.name for word in words)]


def main():
    rows = chosen(sys.argv[1:])
    program = built_program()
    with ThreadPoolExecutor(WORKERS) as pool:
        failures = list(pool.map(lambda row: failure(program, row), rows))
    lines = [f"{row.name}: {wrong}" for row, wrong in zip(rows, failures) if wrong is not None]
    passed = len(rows) - len(lines)
    lines += [f"two rows are named {name}" for name in repeated(rows)]
    print("".join(f"failed: {line}\n" for line in lines) + f"{passed} passed, {len(lines)} failed")
    return 1 if lines or not passed else 0


if __name__ == "__main__":
    sys.exit(main())
