"""Says which edits are not well formed, or do not fit the text: all of edits/ and of must-fail/, or
those of the named crates.

    python3 bench/edits_stand.py [CRATE..]

An edit has lines `file: PATH`, and under each pairs of a line `old: TEXT` and a line `new: TEXT`.
Each old text stands exactly once in the file, as the pairs above have left it. The status is 1
where one does not.
"""

import collections
import os
import sys

from edits_read import edits_of


def faults_of(lines, crate):
    """The faults of an edit of a crate."""
    texts, file, old, found = {}, None, None, []
    for line in lines:
        word, _, rest = line.partition(":")
        text = rest[1:]
        if word == "file":
            file = f"{crate}/{text.strip()}"
            if not os.path.isfile(file):
                return [f"no file {file}"]
            if file not in texts:
                with open(file, encoding="utf-8") as whole:
                    texts[file] = whole.read()
        elif word == "old" and file and old is None:
            old, count = text, texts[file].count(text)
            if count != 1:
                found.append(f"its old text stands {count} times in {file}: {text.strip()}")
        elif word == "new" and old is not None:
            texts[file] = texts[file].replace(old, text, 1)
            old = None
        elif line.strip():
            found.append(f"a line of another kind or out of place: {line.strip()}")
    return found + ["an old text without a new one"] * (old is not None)


def main():
    os.chdir(f"{os.path.dirname(os.path.abspath(__file__))}/..")
    names = sys.argv[1:] or sorted(os.listdir("crates"))
    is_well = True
    for name in names:
        edits = edits_of(".", name)
        count = collections.Counter(edit for edit, _ in edits)
        for edit, lines in edits:
            faults = faults_of(lines, f"crates/{name}") if edit else ["lines without a name"]
            for fault in faults + ["a name of two edits"] * (count[edit] > 1):
                print(f"{name}/{edit}: {fault}")
                is_well = False
    sys.exit(0 if is_well else 1)


main()
