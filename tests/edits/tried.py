"""The table of what was tried: which must-fail edit, at which files of its crate, and what came of it.

A row has a checksum of the crate's code, definitions and proofs and of the edit's own text, so that it can be told with no history
whether these are as they were when the edit was tried.
"""

import hashlib
import pathlib
import re

HERE = pathlib.Path(__file__).resolve().parent
TOP = HERE.parent.parent
TABLE = HERE / "TRIED.md"
REFUSED, MISSED, BAD, UNTRIED = "refused", "NOT REFUSED", "BAD EDIT", "NOT TRIED"
HEAD = f"""# Edits that were tried

`tests/edits/try` writes this table. A row is a must-fail edit, of those that the gate tries too; the day and the commit at which it was \
tried; a checksum of the files in `src/`, `specs/` and `proofs/` of its crate and of the edit, as they then were; and what came of it: \
`{REFUSED}`, as it must be, `{MISSED}`, `{BAD}` (it cannot be applied, compiled or read) or `{UNTRIED}` (its check came to no end). \
`tests/repository` names the crates whose files have changed since, and the edits that have no row.

| Crate | Edit | Tried | Files | Came of it |
|---|---|---|---|---|
"""
ROW = re.compile(r"\| `(\w+)` \| `([\w.-]+)` \| ([^|]*) \| `(\w+)` \| ([^|]*) \|")


def crates():
    """The names of the repository's crates, lowest first."""
    lines = (TOP / "crates.txt").read_text(encoding="utf-8").splitlines()
    return [line.split(":")[0].split()[0] for line in lines if ":" in line and not line.startswith("#")]


def edits_of(crate):
    """The edits of a crate that the gate tries, and those that are tried by hand."""
    gate, by_hand = TOP / "crates" / crate / "must-fail", HERE / crate
    return sorted(gate.glob("*.edit")), sorted(by_hand.glob("*.edit"))


def sum_of(crate):
    """What a checksum of the crate's files begins with."""
    total = hashlib.sha256()
    for part in ("src", "specs", "proofs"):
        for path in sorted((TOP / "crates" / crate / part).rglob("*")):
            if path.is_file():
                total.update(f"{path.relative_to(TOP)}\n{path.stat().st_size}\n".encode())
                total.update(path.read_bytes())
    return total


def files_of(crate):
    """The checksum of each edit of a crate, with the files that it changes, by the edit's name."""
    own, found = sum_of(crate), {}
    for edit in sum(edits_of(crate), []):
        total = own.copy()
        total.update(edit.read_bytes())
        found[edit.stem] = total.hexdigest()[:12]
    return found


def read():
    """What is in the table, by crate and edit: when it was tried, at which files, and what came of it."""
    if not TABLE.exists():
        return {}
    rows = map(ROW.fullmatch, TABLE.read_text(encoding="utf-8").splitlines())
    return {(row[1], row[2]): (row[3], row[4], row[5]) for row in rows if row}


def write(rows):
    """Writes the table anew, with the rows of edits that still exist."""
    lines = []
    for crate in crates():
        names = [edit.stem for edit in sum(edits_of(crate), [])]
        for name in sorted(names):
            if (crate, name) in rows:
                when, files, came = rows[crate, name]
                lines.append(f"| `{crate}` | `{name}` | {when} | `{files}` | {came} |\n")
    new = TABLE.with_name("TRIED.md.new")
    new.write_text(HEAD + "".join(lines), encoding="utf-8")
    new.replace(TABLE)
