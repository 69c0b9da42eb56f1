"""Tries must-fail edits many at a time, and says which the prover does not refuse.

    python3 bench/edits_together.py [--jobs N] [--skip FILE] ROOT CRATE..

ROOT is a checkout in which the libraries below each crate are built (`rt ci` and `rt check` build
them), with edits in edits/CRATE.edits and in crates/CRATE/must-fail. A function is proved against the
contracts of those that it calls, never against their bodies. So edits of different functions do not
touch each other's proofs, and one check tries up to 16 of them: it says of each function whether it
is proved. One that calls a function which is not proved may not be tried itself, and its edit goes
into a later check. An edit that lies in no function, or whose function is still proved, is tried
alone. Where a crate has many edits, it is checked once as it stands, and what the prover keeps of
that check begins each of the others.

It prints a line for each edit: `refused` with a goal that is open, `refused alone`, `NOT REFUSED`,
`BAD` for one that does not reach the prover, or `UNKNOWN`. A line `left` says that an edit will be
tried alone, which can take as long as the proof of its crate. With such lines in FILE it does not
try again what they say is refused. The status is 1 unless all are refused.
"""

import argparse
import collections
import concurrent.futures
import functools
import glob
import os
import re
import shutil
import subprocess
import sys
import tempfile
import threading

sys.path.insert(0, os.path.dirname(os.path.realpath(shutil.which("rt"))))
import rtlib  # noqa: E402  (the toolchain's own, beside its command)

from edits_read import edits_of  # noqa: E402

# Commands that end with this one.
GUARD = rtlib.guarded()
# How many edits one check tries at most.
MOST = 16
# With fewer edits to try, a crate is not checked as it stands first.
FEW = 20
FUNCTION = re.compile(r"^(\s*)(?:pub(?:\([^)]*\))? )?(?:const )?fn (\w+)")
TYPE = re.compile(r"(?m)^(?:pub(?:\([^)]*\))? )?(?:struct|enum|trait) (\w+)")
VERDICT = re.compile(r"^fn (\S+): (proved|no proof|not proved)(?:[:;] (.*))?$")
GOAL = re.compile(r"^note: (src/\S+):(\d+):\d+: (.*is not proved.*)")

Function = collections.namedtuple("Function", "file first last name owner trait")


def text_of(path):
    with open(path, encoding="utf-8") as it:
        return it.read()


@functools.lru_cache(maxsize=None)
def types_of(folder):
    """The file of each type of a crate."""
    paths = glob.glob(f"{folder}/src/**/*.rt", recursive=True)
    return {name: os.path.relpath(it, folder) for it in paths for name in TYPE.findall(text_of(it))}


def end_of(lines, first, indent):
    """The last line of the function that begins at this one, as rt fmt lays it out."""
    for at in range(first, len(lines)):
        is_own = at == first or not lines[at].startswith(f"{indent} ")
        if lines[at].startswith(indent) and is_own and lines[at].rstrip().endswith((";", "}")):
            return at
    return len(lines) - 1


def block_above(lines, first):
    """The type and the trait of the block that has this line, as the prover names them."""
    at = first
    while at >= 0 and not lines[at].startswith(("impl", "pub trait", "trait")):
        at -= 1
    if not lines[first].startswith(" ") or at < 0:
        return "", ""
    head = " ".join(lines[at : first + 1]).split("{")[0]
    if not head.startswith("impl"):
        return re.search(r"trait (\w+)", head)[1], ""
    head = without_parameters(head.removeprefix("impl").strip())
    trait, is_one, owner = head.partition(" for ")
    owner, trait = (owner, trait) if is_one else (head, "")
    owner = re.sub(r"^&(?:'\w+ )?(?:mut )?", "", owner.strip())
    if owner.startswith("Box<dyn"):
        return "".join(it.capitalize() if it == "dyn" else it for it in re.findall(r"\w+", owner)), joined(trait)
    return re.match(r"[\w:]+", owner)[0].split("::")[-1], joined(trait)


def joined(trait):
    return "".join(re.findall(r"\w+", re.sub(r"'\w+", "", trait)))


def without_parameters(head):
    """What stands behind the parameters `<..>` at the beginning."""
    depth = 0
    for at, letter in enumerate(head if head.startswith("<") else ""):
        depth += (letter == "<") - (letter == ">" and head[at - 1] != "-")
        if not depth:
            return head[at + 1 :].strip()
    return head


class Edit:
    """An edit, and the functions that it changes; None among them is a place outside of functions."""

    def __init__(self, name, lines, crate):
        self.crate, self.pairs = crate, []
        self.name = f"{crate.name}/{name}"
        file = old = None
        for line in lines:
            word, _, rest = line.partition(":")
            if word == "file":
                file = rest.strip()
            elif word == "old":
                old = rest[1:]
            elif word == "new":
                self.pairs.append((file, old, rest[1:]))
        self.functions = {self.function_at(file, old) for file, old, _ in self.pairs}
        self.is_in_one = len(self.functions) == 1 and None not in self.functions
        self.function = next(iter(self.functions)) if self.is_in_one else None

    def function_at(self, file, old):
        text = text_of(f"{self.crate.folder}/{file}")
        lines, at = text.split("\n"), text.count("\n", 0, text.find(old))
        found = None
        for first, line in enumerate(lines[: at + 1]):
            head = FUNCTION.match(line)
            last = end_of(lines, first, head[1]) if head else -1
            if at <= last:
                found = Function(file, first, last, head[2], *block_above(lines, first))
        return found

    def target(self, function):
        """The path of a function, as the prover names it."""
        file = function.file
        if not function.trait:
            file = types_of(self.crate.folder).get(function.owner, file)
        module = file.removeprefix("src/").removesuffix(".rt").removesuffix("/mod")
        parts = [] if module in ("lib", "main") else module.split("/")
        owner = function.owner + function.trait
        return "::".join([self.crate.name, *parts, *([owner] if owner else []), function.name])

    def apply(self, texts):
        """Makes the changes in these texts of files; False if one does not fit."""
        for file, old, new in self.pairs:
            text = texts.get(file) or text_of(f"{self.crate.folder}/{file}")
            if text.count(old) != 1:
                return False
            texts[file] = text.replace(old, new, 1)
        return True

    def splice(self, lines):
        """Makes the changes in the edit's function, among the lines of its file."""
        span = slice(self.function.first, self.function.last + 1)
        body = "\n".join(lines[span])
        for _, old, new in self.pairs:
            if body.count(old) != 1:
                return False
            body = body.replace(old, new, 1)
        lines[span] = body.split("\n")
        return True

    def open_goal(self, lines):
        """The first goal in the edit's function that the prover says is open, or None."""
        for goal in filter(None, map(GOAL.match, lines)):
            if goal[1] == self.function.file and self.function.first < int(goal[2]) <= self.function.last + 1:
                return goal[3]
        return None


def edited(crate, edits):
    """The texts of the files that these edits change, or None if one does not fit."""
    texts = {}
    if len(edits) == 1:
        return texts if edits[0].apply(texts) else None
    # (from the last function of a file on, so that the lines above stay where they are)
    for edit in sorted(edits, key=lambda it: it.function[:2], reverse=True):
        file = edit.function.file
        lines = (texts.get(file) or text_of(f"{crate.folder}/{file}")).split("\n")
        if not edit.splice(lines):
            return None
        texts[file] = "\n".join(lines)
    return texts


def linked(folder, to):
    """Copies what the prover kept, its files of proofs by links: it replaces such a file and changes
    none."""

    def copy(one, other):
        return os.link(one, other) if one.endswith(".oantt") else shutil.copy2(one, other)

    shutil.copytree(folder, to, symlinks=True, copy_function=copy)


def check(crate, texts, targets, kept=None):
    """What the prover says of these functions, of all if there are none, with these texts in place
    of the crate's: status and lines. It begins with what it kept in a folder, and adds to it."""
    with tempfile.TemporaryDirectory(prefix="edits-") as room:
        for part in rtlib.PARTS:
            if os.path.isdir(f"{crate.folder}/{part}"):
                shutil.copytree(f"{crate.folder}/{part}", f"{room}/{part}")
        for path, text in texts.items():
            with open(f"{room}/{path}", "w", encoding="utf-8") as it:
                it.write(text)
        words = [*GUARD, rtlib.RATTLE, "check", *crate.words(["--jobs", "1"], keeps=False)]
        words += [word for it in sorted(targets) for word in ("--only", it)]
        words += ["--incremental", kept] if kept else []
        how = {"stdin": subprocess.DEVNULL, "stdout": subprocess.PIPE, "stderr": subprocess.STDOUT}
        ran = subprocess.run(words, cwd=room, text=True, errors="replace", **how)
        return ran.returncode, ran.stdout.rstrip("\n").split("\n")


def batches(edits):
    """Lists of at most MOST edits, no two of one function in a list."""
    rows = collections.defaultdict(list)
    for edit in edits:
        rows[edit.function].append(edit)
    most = max(map(len, rows.values()), default=0)
    found = [[it[at] for it in rows.values() if at < len(it)] for at in range(most)]
    return [it[at : at + MOST] for it in found for at in range(0, len(it), MOST)]


class Tries:
    """The tries of one crate's edits."""

    def __init__(self, root, name, say, skips=()):
        self.crate, self.say, self.fates = rtlib.Crate(f"{root}/crates/{name}", root, {}), say, {}
        edits = (Edit(*it, self.crate) for it in edits_of(root, name))
        self.edits = [it for it in edits if it.name not in skips]
        self.kept = None

    def keep(self, room):
        """Checks the crate as it stands, and keeps what is proved in a folder of this one. It begins
        with what `rt check` kept."""
        kept, before = f"{room}/{self.crate.name}", f"{self.crate.folder}/out/incremental"
        if os.path.isdir(before):
            linked(before, kept)
        else:
            os.mkdir(kept)
        status, lines = check(self.crate, {}, [], kept)
        if status == 0:
            self.kept = kept
        else:
            self.say(f"{self.crate.name}: not proved as it stands: {lines[-1]}")

    def check(self, edits, targets):
        """What the prover says of these functions with these edits, of all if there are none."""
        texts = edited(self.crate, edits)
        if texts is None:
            return None, [f"{' '.join(it.name for it in edits)}: an edit does not fit"]
        if not self.kept:
            return check(self.crate, texts, targets)
        with tempfile.TemporaryDirectory(prefix="edits-") as room:
            linked(self.kept, f"{room}/kept")
            return check(self.crate, texts, targets, f"{room}/kept")

    def settle(self, edit, word, why=""):
        self.fates[edit] = word
        self.say(f"{edit.name}: {word}{': ' if why else ''}{why[:200]}")

    def together(self, edits):
        """Tries edits of different functions at once; gives those to try later, and those to try
        alone."""
        targets = {it: it.target(it.function) for it in edits}
        status, lines = self.check(edits, targets.values())
        if status not in (0, 1) and len(edits) > 1:
            half = len(edits) // 2
            first, second = self.together(edits[:half]), self.together(edits[half:])
            return first[0] + second[0], first[1] + second[1]
        told = {it[1]: (it[2], it[3] or "") for it in map(VERDICT.match, lines) if it}
        masked, alone = [], []
        for edit in edits:
            verdict, why = told.get(targets[edit], ("proved", ""))
            goal = edit.open_goal(lines)
            if status != 1 or verdict == "proved":
                alone.append(edit)
            elif goal or not why.startswith("it calls"):
                self.settle(edit, "refused", goal or why)
            else:
                masked.append(edit)
        # (where nothing was settled, the same check would come again)
        return (masked, alone) if len(masked) < len(edits) else ([], masked)

    def alone(self, edit):
        known = None not in edit.functions
        targets = [edit.target(it) for it in edit.functions] if known else []
        status, lines = self.check([edit], targets)
        if targets and status in (0, 2):
            status, lines = self.check([edit], [])
        is_open = any(it[2] != "proved" for it in map(VERDICT.match, lines) if it)
        if status == 1 and (is_open or lines[-1].startswith("logic=not-proved")):
            why = next((it for it in lines if re.match(r"(note: )?\S+:\d+:\d+:", it)), "")
            self.settle(edit, "refused alone", why)
        elif status == 0:
            self.settle(edit, "NOT REFUSED")
        elif status == 1 and any(re.search(r"\berror\[[\w-]+\]", it) for it in lines):
            self.settle(edit, "BAD", next(it for it in lines if "error[" in it))
        else:
            self.settle(edit, f"UNKNOWN (status {status})", " ".join(lines[-3:]))

    def run(self, pool, room):
        if len(self.edits) >= FEW:
            pool.submit(self.keep, room).result()
        left = [it for it in self.edits if it.is_in_one]
        alone = [it for it in self.edits if not it.is_in_one]
        while left:
            results = list(pool.map(self.together, batches(left)))
            left = [it for masked, _ in results for it in masked]
            alone += [it for _, single in results for it in single]
        for edit in alone:
            self.say(f"{edit.name}: left")
        list(pool.map(self.alone, alone))


def main():
    parser = argparse.ArgumentParser()
    parser.add_argument("--jobs", type=int, default=os.cpu_count())
    parser.add_argument("--skip")
    parser.add_argument("root")
    parser.add_argument("crates", nargs="+")
    options = parser.parse_args()
    one = threading.Lock()

    def say(line):
        with one:
            print(line, flush=True)

    skips = set(re.findall(r"(?m)^(\S+): refused", text_of(options.skip))) if options.skip else ()
    root = os.path.realpath(options.root)
    tries = [Tries(root, it, say, skips) for it in options.crates]
    with concurrent.futures.ThreadPoolExecutor(options.jobs) as pool:
        with concurrent.futures.ThreadPoolExecutor(len(tries)) as crates:
            with tempfile.TemporaryDirectory(prefix="kept-") as room:
                list(crates.map(lambda it: it.run(pool, room), tries))
    fates = [it.fates.get(edit, "UNKNOWN") for it in tries for edit in it.edits]
    good = sum(it.startswith("refused") for it in fates)
    say(f"{good} of {len(fates)} edits refused")
    sys.exit(0 if good == len(fates) else 1)


main()
