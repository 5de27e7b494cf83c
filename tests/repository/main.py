"""Checks of the repository that the gate does not make: the examples have their reports by the program that the gate
built, the documents name what exists, must-fail edits can be applied, crates import and define what they use and no more, and
what is written in Python is in order.

    tests/repository/run [--documents]    all checks, or with --documents those that need no program
    tests/repository/run --imports        imports of crates that nothing uses, and nothing else

What it asks of the documents alone is in documents.py and pages.py, of the map in map_of_calls.py, of rule numbers in rule_numbers.py, of
limits in limits.py, of Python in python_code.py, of imports in imports.py, and of definitions and lemmas in unused_names.py.

Prints a line for each finding, and fails if there is one. A notice, as of edits that were not tried since their crate changed, is none.
"""

import argparse
import collections
import re
import subprocess
import sys

import documents
import imports
import limits
import map_of_calls
import pages
import python_code
import rule_numbers
import unused_names

from edits import tried
from edits.tried import crates, edits_of
from explained import table
from wgsim import TOP, causes

DOCUMENTS = [TOP / "README.md", *sorted((TOP / "docs").glob("*.md"))]
PROGRAM = TOP / "crates/wgsim/out/wgsim"
# Six tell most of a crate. Eight leave room for the whole wrong bodies that a reader thinks of first, as a read that always fails, beside
# those that turn one case.
MOST_EDITS = 8
MOST_IN_THE_GATE = 1
MOST_OF_THE_GATE = 10
findings = []


def check_paths():
    """Each path in backticks that begins with a folder of the repository exists, but for what is made, below an out/."""
    for document in DOCUMENTS:
        text = document.read_text(encoding="utf-8")
        for path in re.findall(r"`((?:crates|docs|tests|examples|tools|model|measure|include|\.ci)/[^`\s]*)`", text):
            if "out" not in path.split("/") and not (TOP / path).exists():
                findings.append(f"{document.relative_to(TOP)}: {path} does not exist")


def check_edits():
    """Each must-fail edit that the promises name is there, and each that is there is named, and can be applied."""
    text = (TOP / "docs/promises.md").read_text(encoding="utf-8")
    known = set()
    for folder in sorted((TOP / "tests/edits").iterdir()):
        if folder.is_dir() and folder.name not in crates():
            findings.append(f"{folder.relative_to(TOP)}: there is no crate {folder.name}")
    for crate in crates():
        for edit in sum(edits_of(crate), []):
            known.add(edit.stem)
            if f"`{edit.stem}`" not in text:
                findings.append(f"docs/promises.md: {crate}'s must-fail edit {edit.stem} is not in it")
            check_applies(crate, edit)
    for row in text.splitlines():
        cells = row.split("|")
        if len(cells) >= 5:
            for name in re.findall(r"`([a-z0-9-]+)`", cells[3]):
                if name not in known:
                    findings.append(f"docs/promises.md: there is no must-fail edit {name}")


def check_applies(crate, edit):
    """Each text that an edit changes is in its file once, as the edit has left it so far."""
    texts, path, old = {}, None, None
    for line in edit.read_text(encoding="utf-8").splitlines():
        if line.startswith("file: "):
            path = TOP / "crates" / crate / line[len("file: ") :].strip()
            if not path.is_file():
                findings.append(f"{edit.relative_to(TOP)}: there is no {path.relative_to(TOP)}")
                return
            texts.setdefault(path, path.read_text(encoding="utf-8"))
        elif line.startswith("old: "):
            old = line[len("old: ") :]
        elif line.startswith("new:"):
            count = texts[path].count(old)
            if count != 1:
                findings.append(f"{edit.relative_to(TOP)}: what it changes is in {path.relative_to(TOP)} {count} times")
            texts[path] = texts[path].replace(old, re.sub(r"\Anew: ?", "", line))


def check_few_edits():
    """The gate tries at most one edit of a crate, and ten in all, since each is a check of the crate anew; with those by hand a crate has
    at most eight."""
    every = [edit for crate in crates() for edit in edits_of(crate)[0]]
    if len(every) > MOST_OF_THE_GATE:
        findings.append(f"the gate tries {len(every)} edits, and at most {MOST_OF_THE_GATE} are wanted")
    for crate in crates():
        gate, by_hand = edits_of(crate)
        if len(gate) > MOST_IN_THE_GATE:
            findings.append(f"crates/{crate}/must-fail: {len(gate)} edits, and at most {MOST_IN_THE_GATE} are wanted")
        if len(gate) + len(by_hand) > MOST_EDITS:
            findings.append(f"{crate} has {len(gate) + len(by_hand)} edits, and at most {MOST_EDITS} are wanted")


def check_tried():
    """No edit was still proved, or was no edit, when it was last tried. Those that the gate does not try and that were never tried, or
    not since their crate changed, are a notice."""
    rows, never, before = tried.read(), [], []
    for crate in crates():
        files = tried.files_of(crate)
        known = {name: rows[crate, name] for name in files if (crate, name) in rows and rows[crate, name][2] != tried.UNTRIED}
        for name, (_, at, came) in known.items():
            if at == files[name] and not came.startswith(tried.REFUSED):
                findings.append(f"tests/edits/TRIED.md: {crate}'s must-fail edit {name}: {came}")
        names = [edit.stem for edit in edits_of(crate)[1]]
        never += [(crate, name) for name in names if name not in known]
        before += [(crate, name) for name in names if name in known and known[name][1] != files[name]]
    for found, what in ((never, "were never tried"), (before, "were tried before their crate changed")):
        counts = collections.Counter(crate for crate, _ in found)
        if counts:
            print(f"notice: tests/edits/try, for edits that {what}: {', '.join(f'{crate} ({count})' for crate, count in counts.items())}")


def code_of(crate):
    """The text of a crate's code."""
    return "\n".join(path.read_text(encoding="utf-8") for path in sorted((TOP / "crates" / crate / "src").rglob("*.rt")))


def check_promises():
    """The second cells of the promises name calls that exist, and clauses that stand at them."""
    known = crates()
    codes = {crate: code_of(crate) for crate in known}
    for row in (TOP / "docs/promises.md").read_text(encoding="utf-8").splitlines():
        cells = row.split("|")
        if len(cells) < 5:
            continue
        crate = None
        for name in re.findall(r"`([^`]+)`", cells[2]):
            if "::" in name:
                crate, item = name.split("::")[0], name.split("::")[-1]
                if crate not in known:
                    findings.append(f"docs/promises.md: {name}: there is no crate {crate}")
                elif not re.search(rf"\b(fn|struct|enum|trait|mod) {item}\b", codes[crate]):
                    findings.append(f"docs/promises.md: {name} is not in the code of {crate}")
            elif crate in codes and re.fullmatch(r"[a-z_]+", name):
                if not re.search(rf"\bensures {name}\b", codes[crate]):
                    findings.append(f"docs/promises.md: no clause {name} in the code of {crate}")


def check_causes():
    """Each rule that a script can leave unmet has a cause that explain tells, and a case in the tables of tests/explained."""
    findings.extend(table.findings(causes.RULES))


def check_examples():
    """Each example has its report, or one of those that it has: the program that the gate built, on each script of examples/."""
    if not PROGRAM.exists():
        findings.append(f"{PROGRAM.relative_to(TOP)} is not there: run `rt ci` or `./wgsim prove` first")
        return
    for script in sorted((TOP / "examples").glob("*.json")):
        run = subprocess.run([PROGRAM, "run"], stdin=script.open("rb"), capture_output=True)
        reports = [script.with_suffix(".report"), *script.parent.glob(script.stem + ".alt*.report")]
        if run.stdout not in [report.read_bytes() for report in reports]:
            findings.append(f"{script.relative_to(TOP)}: the program writes another report")


def main():
    parser = argparse.ArgumentParser(prog="tests/repository/run", description=__doc__.split("\n\n", maxsplit=1)[0])
    parser.add_argument("--documents", action="store_true", help="what needs no program")
    parser.add_argument("--imports", action="store_true", help="imports of crates that nothing uses, and nothing else")
    words = parser.parse_args()
    if words.imports:
        return told(imports.unused(TOP, crates()))
    if not words.documents:
        check_examples()
        documents.check_shown(TOP, PROGRAM, findings)
    for check in (check_paths, check_edits, check_few_edits, check_tried, check_promises, check_causes):
        check()
    findings.extend(documents.findings_of(TOP, crates()) + pages.findings_of(TOP, crates()) + map_of_calls.findings_of(TOP))
    findings.extend(rule_numbers.findings_of(TOP) + limits.findings_of(TOP) + python_code.findings_of(TOP))
    findings.extend([*imports.unused(TOP, crates()), *unused_names.unused(TOP, crates())])
    return told(findings)


def told(found):
    """Prints a line for each finding, and returns the exit status."""
    found = list(found)
    for finding in found:
        print(finding)
    print(f"repository checks: {len(found)} findings")
    return 1 if found else 0


sys.exit(main())
