#!/usr/bin/env python3
"""Reads the edits that have to be refused, in crates/CRATE/must-fail/ and in mutants/, and makes them in a copy.

    tools/edits.py    says which edits can't be made, and counts them. It tries nothing

mutants/README.md has the format. Each old text stands in its file exactly once. docs/auditor.md has to tell the counts.
"""
import re
import subprocess
import sys
from pathlib import Path

TOP = Path(__file__).resolve().parent.parent
# The line of the last try of a mutant.
STATE = re.compile(r"untried$|tried: refused\b|tried: not refused\b")


class BadEdit(Exception):
    """An edit that can't be made, with the reason."""


class Edit:
    """A change of sources, with what has to refuse it (of a definition) and the line of its last try."""

    def __init__(self, path, name):
        self.path, self.name = path, name
        self.refused_by, self.state, self.changes = None, None, []
        self.file = self.old = None

    def take(self, line):
        """Reads a line of its section."""
        key, _, text = line.partition(": ") if ": " in line else line.partition(":")
        text = text.replace("⏎", "\n")
        if key in ("tried", "untried"):
            self.state = line
        elif key == "refused by":
            self.refused_by = text
        elif key == "file":
            self.file = text
        elif key == "old":
            self.old = text
        elif key == "new" and self.file and self.old is not None:
            self.changes.append((self.file, self.old, text))
            self.old = None
        else:
            raise BadEdit(f"{self.path} [{self.name}]: what is this line? {line}")


def read_edit(path):
    """Returns the edit of a file of must-fail/."""
    edit = Edit(path, path.stem)
    for line in path.read_text().splitlines():
        if line:
            edit.take(line)
    return edit


def read_mutants(kind, crate):
    """Returns the edits of mutants/KIND/CRATE.txt, in order."""
    path, edits = mutants_file(kind, crate), []
    if not path.exists():
        return edits
    for line in path.read_text().split("\n"):
        if line.startswith("["):
            edits.append(Edit(path, line.strip("[]")))
        elif line and not line.startswith("#"):
            if not edits:
                raise BadEdit(f"{path}: a line before the first [NAME]: {line}")
            edits[-1].take(line)
    names = [edit.name for edit in edits]
    if len(set(names)) < len(names):
        raise BadEdit(f"{path}: {max(names, key=names.count)} is there twice")
    for edit in edits:
        if not STATE.match(edit.state or ""):
            raise BadEdit(f"{path} [{edit.name}]: neither `tried: refused`, `tried: not refused` nor `untried`")
        if (kind == "definitions") != (edit.refused_by is not None):
            raise BadEdit(f"{path} [{edit.name}]: `refused by:` is for definitions")
    return edits


def mutants_file(kind, crate):
    return TOP / "mutants" / kind / f"{crate}.txt"


def crates_with_mutants(kind):
    """The crates that have a file in mutants/KIND, by name."""
    return sorted(path.stem for path in (TOP / "mutants" / kind).glob("*.txt"))


def record_state(edit, state):
    """Writes the state of an edit into its section."""
    text = edit.path.read_text()
    found = re.search(rf"^\[{re.escape(edit.name)}\]\n(?:refused by: .*\n)?((?:tried: .*|untried))$", text, re.M)
    edit.path.write_text(text[:found.start(1)] + state + text[found.end(1):])


def texts(folder, edit):
    """Returns what stands in the files of the edit, and what the edit makes of it."""
    before, after = {}, {}
    if not edit.changes:
        raise BadEdit(f"{edit.path} [{edit.name}]: no change")
    for file, old, new in edit.changes:
        if not (folder / file).exists():
            raise BadEdit(f"{file}: there is no such file")
        text = after.get(file, (folder / file).read_text())
        before.setdefault(file, text)
        if text.count(old) != 1:
            raise BadEdit(f"{file}: {text.count(old)} times there: {old}")
        after[file] = text.replace(old, new)
    return before, after


def changed(folder, edit):
    """Makes the edit, and returns the texts that stood in its files before."""
    before, after = texts(folder, edit)
    put_back(folder, after)
    return before


def put_back(folder, before):
    """Writes these texts into their files."""
    for file, text in before.items():
        (folder / file).write_text(text)


def crates_below(crate):
    """Returns the crate and all that it uses, each with its line of crates.txt."""
    uses, lines = {}, {}
    for line in (TOP / "crates.txt").read_text().splitlines():
        name, colon, low = line.split("#")[0].partition(":")
        if colon:
            name = name.split()[0]
            uses[name], lines[name] = low.split(), line
    found, waiting = {}, [crate]
    while waiting:
        name = waiting.pop()
        if name in uses and name not in found:
            found[name] = lines[name]
            waiting += uses[name]
    return found


def copied(crate, work):
    """Copies the crate and those below it, with what earlier checks kept. Returns the crate's folder there."""
    below = crates_below(crate)
    if crate not in below:
        raise BadEdit(f"crates.txt has no crate {crate}")
    (work / "crates.txt").write_text("".join(line + "\n" for line in below.values()))
    for low in below:
        subprocess.run(["cp", "-a", "--parents", f"crates/{low}", work], cwd=TOP, check=True)
    return work / "crates" / crate


def run(folder, *words):
    """Returns the status and the whole output of a command of the toolchain."""
    done = subprocess.run(("rt",) + words, cwd=folder, stdout=subprocess.PIPE, stderr=subprocess.STDOUT, text=True)
    return done.returncode, done.stdout


def counts(of_gate, mutants):
    """Returns the lines of docs/auditor.md that tell how many edits there are."""
    bodies, definitions = mutants["bodies"], mutants["definitions"]
    untried = {kind: sum(edit.state == "untried" for edit, _ in edits) for kind, edits in mutants.items()}
    return [
        f"- The gate tries {len(of_gate)} wrong bodies (`must-fail/`). The prover has to refuse each.",
        f"- [mutants/](../mutants/README.md) keeps {len(bodies)} more, {untried['bodies']} of them untried.",
        f"- It keeps {len(definitions)} wrong definitions, {untried['definitions']} of them untried, each with the law, "
        "test or script that has to refuse it.",
    ]


def main():
    """Prints which edits can't be made."""
    crates, good, bad = TOP / "crates", 0, []
    of_gate = [(read_edit(path), path.parent.parent) for path in sorted(crates.glob("*/must-fail/*.edit"))]
    mutants = {
        kind: [(edit, crates / crate) for crate in crates_with_mutants(kind) for edit in read_mutants(kind, crate)]
        for kind in ("bodies", "definitions")
    }
    told = (TOP / "docs/auditor.md").read_text().splitlines()
    bad += [f"docs/auditor.md lacks the line: {line}" for line in counts(of_gate, mutants) if line not in told]
    edits = of_gate + mutants["bodies"] + mutants["definitions"]
    for edit, folder in edits:
        try:
            texts(folder, edit)
            good += 1
        except BadEdit as why:
            bad.append(f"{edit.path.relative_to(TOP)} [{edit.name}]: {why}")
    for line in bad:
        print(line)
    print(f"{good} edits can be made, {len(bad)} not")
    sys.exit(bool(bad))


if __name__ == "__main__":
    try:
        main()
    except BadEdit as bad_edit:
        sys.exit(f"tools/edits.py: {bad_edit}")
