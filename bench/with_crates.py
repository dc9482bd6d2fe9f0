#!/usr/bin/env python3
"""Makes a repository of some crates of this one and of all that they stand on, for a measurement to add its own crate.

usage: bench/with_crates.py FOLDER CRATE..

FOLDER then has crates/ with their sources, definitions and proofs, their lines of crates.txt, and HANDLES.
"""

import shutil
import sys
from pathlib import Path

sys.dont_write_bytecode = True
TOP = Path(__file__).resolve().parent.parent
sys.path.insert(0, str(TOP / "tools" / "gate"))
from crates import below, stands_on


def copy_crates(folder, names):
    """The crates of these names and all that they stand on, below the folder."""
    graph = stands_on()
    needed = {crate for name in names for crate in below(name, graph)}
    for crate in sorted(needed):
        for part in ("src", "specs", "proofs"):
            if (TOP / "crates" / crate / part).is_dir():
                shutil.copytree(TOP / "crates" / crate / part, folder / "crates" / crate / part)
    lines = (TOP / "crates.txt").read_text().splitlines(keepends=True)
    (folder / "crates.txt").write_text("".join(line for line in lines if line.split(":")[0] in needed))
    shutil.copyfile(TOP / "HANDLES", folder / "HANDLES")


if __name__ == "__main__":
    copy_crates(Path(sys.argv[1]), sys.argv[2:])
