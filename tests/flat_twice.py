"""Flat texts of random sets of modules, with fixed seeds: each is its own flat text and has the counts of its set.

A set that is refused has the same refusal from check and from flatten. The program is that of the rows."""

import random
import subprocess
import sys
import tempfile
from concurrent.futures import ThreadPoolExecutor
from pathlib import Path

from rows.program import built_program
from rows.random_sets import random_set

SETS = 2_000
FLAT_SHARE = 0.6
SECONDS = 60
WORKERS = 4


def run(program, folder, *words):
    done = subprocess.run([program, *words], cwd=folder, stdin=subprocess.DEVNULL, stdout=subprocess.PIPE,
                          stderr=subprocess.DEVNULL, timeout=SECONDS)
    return done.returncode, done.stdout


def write(folder, name, data):
    path = Path(folder, name)
    path.parent.mkdir(parents=True, exist_ok=True)
    path.write_bytes(data)


def judged(program, seed):
    """Whether the set of this seed is flat, and what is wrong with it, or None."""
    files, words = random_set(random.Random(seed))
    with tempfile.TemporaryDirectory() as folder:
        for name, text in files.items():
            write(folder, name, text.encode("utf-8"))
        status, flat = run(program, folder, "flatten", *words)
        counted = run(program, folder, "check", *words)
        if status != 0:
            right = status == 2 and flat.startswith(b"refused E") and counted == (2, flat)
            return False, None if right else f"status {status}, {flat!r}, but check gives {counted!r}"
        write(folder, "flat.dtd", flat)
        again = run(program, folder, "flatten", "-", "flat.dtd")
        if again != (0, flat):
            return True, f"flat text {flat!r} gives {again!r}"
        counted_again = run(program, folder, "check", "-", "flat.dtd")
    if counted[0] != 0 or counted_again != counted:
        return True, f"check gives {counted!r}, but {counted_again!r} of the flat text {flat!r}"
    return True, None


def main():
    count = int(sys.argv[1]) if len(sys.argv) > 1 else SETS
    program = built_program(direct=True)
    with ThreadPoolExecutor(WORKERS) as pool:
        answers = list(pool.map(lambda seed: judged(program, seed), range(count)))
    failed = 0
    for seed, (_, wrong) in enumerate(answers):
        if wrong is not None:
            failed += 1
            print(f"failed: set {seed}: {wrong}")
    flat = sum(is_flat for is_flat, _ in answers)
    if flat < FLAT_SHARE * count:
        failed += 1
        print("failed: too few sets are flat")
    print(f"{count} sets, {flat} flat, {failed} failed")
    return 1 if failed else 0


if __name__ == "__main__":
    sys.exit(main())
