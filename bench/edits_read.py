"""The edits of a crate, each with its name and its lines: those of edits/CRATE.edits, where a line
`edit: NAME` begins each, and those of the gate, each a file of crates/CRATE/must-fail.
"""

import glob
import os


def lines_of(path):
    with open(path, encoding="utf-8") as it:
        return it.read().splitlines()


def edits_of(root, crate):
    """Pairs of a name and the lines below it. Lines above the first name have the name None."""
    path, found = f"{root}/edits/{crate}.edits", []
    for line in lines_of(path) if os.path.isfile(path) else []:
        if line.startswith("edit: "):
            found.append((line.removeprefix("edit: "), []))
        elif line.strip():
            found = found or [(None, [])]
            found[-1][1].append(line)
    for path in sorted(glob.glob(f"{root}/crates/{crate}/must-fail/*.edit")):
        found.append((os.path.basename(path).removesuffix(".edit"), lines_of(path)))
    return found
