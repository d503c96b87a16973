"""Where the program stands."""

import os
import subprocess
import sys
from pathlib import Path

TOP = Path(__file__).resolve().parents[2]
BUILT = TOP / "crates" / "tagset" / "out" / "tagset"


def built_program(direct=False):
    """The absolute path of what the variable TAGSET names, else of ./tagset, else, where direct, of what that built.
    The program is called once without words, so that it is built before it runs several times at once."""
    given = os.environ.get("TAGSET")
    program = os.path.abspath(given or TOP / "tagset")
    done = subprocess.run([program], stdin=subprocess.DEVNULL, stdout=subprocess.PIPE)
    if done.returncode != 3 or done.stdout != b"usage\n":
        sys.exit(f"failed: {program} without words gives status {done.returncode}")
    return str(BUILT) if direct and not given and BUILT.exists() else program
