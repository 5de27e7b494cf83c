"""Checks of the pages: that their lines are short, that contents lead somewhere, that the map and the page on definitions are what the
sources say, that a rule's sentence stands once, and that one version is told.

Each check takes the top of the repository, the names of its crates and a list, to which it adds its findings. `CHECKS` has them all.
"""

import json
import re

from wgsim.generated import definitions, rule_page, rule_texts, tables

LONGEST = 300
LEAST_SENTENCE = 60
HEADING = re.compile(r"^#{1,6} (.*)$", re.M)
INNER = re.compile(r"\]\(#([^)]+)\)")
SHOWN = re.compile(r"^```.*?^```", re.M | re.S)
PARTS = ("MAJOR", "MINOR", "PATCH")
# What each part counts for in the number that the library for C tells.
WEIGHTS = (10_000, 100, 1)
WRITTEN = ("rules.md", "definitions.md")
TREE = re.compile(r"^## The folders\n.*?^```\n(.*?)^```$", re.M | re.S)


def documents(top):
    """The pages: those at the top, those of docs, and those that lie beside what they tell of."""
    beside = [path for path in top.glob("*/**/README.md") if "out" not in path.relative_to(top).parts]
    return sorted({*top.glob("*.md"), *top.glob("docs/*.md"), *beside})


def check_lines(top, crates, findings):
    """No line of a page is longer than it may be, but for those of tables and of what is shown."""
    for path in documents(top):
        shown = False
        for number, line in enumerate(path.read_text(encoding="utf-8").splitlines(), 1):
            shown ^= line.startswith("```")
            if len(line) > LONGEST and not shown and not line.startswith("|"):
                findings.append(f"{path.relative_to(top)}:{number}: {len(line)} characters, and at most {LONGEST} are wanted")


def anchor(heading):
    """By what a link leads to a heading."""
    return re.sub(r"[^\w -]", "", heading.lower()).strip().replace(" ", "-")


def check_contents(top, crates, findings):
    """Each link inside of a page leads to one of its headings."""
    for path in documents(top):
        text = path.read_text(encoding="utf-8")
        known = {anchor(heading) for heading in HEADING.findall(text)}
        for link in INNER.findall(text):
            if link not in known:
                findings.append(f"{path.relative_to(top)}: no heading is #{link}")


def check_generated(top, crates, findings):
    """What is generated is what it is generated from, and each public definition has its sentence."""
    for each in (rule_page, rule_texts, definitions, tables):
        findings.extend(each.findings_of(top))


def folders_of(tree):
    """The paths that a drawn tree has, by how far its lines are indented."""
    above, found = [], []
    for line in tree.splitlines():
        name, depth = line.split()[0], (len(line) - len(line.lstrip())) // 2
        above[depth:] = [name]
        found.append("".join(above))
    return found


def check_folders(top, crates, findings):
    """The tree of the map has what is there, and each folder at the top and below tests and tools."""
    drawn = TREE.search((top / "docs/map.md").read_text(encoding="utf-8"))
    paths = folders_of(drawn[1]) if drawn else []
    findings.extend(f"docs/map.md: {path} of its tree does not exist" for path in paths if not (top / path).exists())
    wanted = [path for above in (top, top / "tests", top / "tools") for path in above.iterdir() if path.is_dir()]
    for path in sorted(wanted):
        if path.name not in (".git", "out", "__pycache__") and f"{path.relative_to(top)}/" not in paths:
            findings.append(f"docs/map.md: {path.relative_to(top)}/ is not in its tree")


def check_sentences(top, crates, findings):
    """The sentence of a rule stands in docs/rules.json, and on no page that is not written, but where a page shows what is printed."""
    table = json.loads((top / "docs/rules.json").read_text(encoding="utf-8"))
    rows = [row for part in table["parts"] for call in part.get("calls", []) for row in call["rules"]]
    long = {row["asks"]: row["rules"] for row in rows if len(row["asks"]) >= LEAST_SENTENCE}
    for path in documents(top):
        text = " ".join(SHOWN.sub("", path.read_text(encoding="utf-8")).split())
        for sentence, numbers in sorted(long.items()):
            if sentence in text and path.name not in WRITTEN:
                findings.append(f"{path.relative_to(top)}: the sentence of rule {numbers[0]} stands in docs/rules.json: {sentence[:60]}")


def check_version(top, crates, findings):
    """The header, the library for C, the crate in Rust and the newest part of the changelog tell the version of the file VERSION."""
    version = (top / "VERSION").read_text(encoding="utf-8").strip()
    number = sum(int(part) * weight for part, weight in zip(version.split("."), WEIGHTS))
    for name, line in (
        ("include/wethlorn.h", f'#define WETHLORN_VERSION "{version}"'),
        *(("include/wethlorn.h", f"#define WETHLORN_VERSION_{part} {number}") for part, number in zip(PARTS, version.split("."))),
        ("crates/wg_c/src/version.rt", f"const VERSION: u32 = {number};"),
        ("crates/wg_c/src/version.rt", f"    ensures {{ result ≡ {number} }}"),
        ("examples/rust/Cargo.toml", f'version = "{version}"'),
        ("examples/rust/Cargo.lock", f'version = "{version}"'),
    ):
        if line not in (top / name).read_text(encoding="utf-8").splitlines():
            findings.append(f"{name}: the line {line} is not in it")
    newest = re.search(r"^## (\S+)", (top / "CHANGELOG.md").read_text(encoding="utf-8"), re.M)
    if not newest or newest[1] != version:
        findings.append(f"CHANGELOG.md: its newest part is not of {version}")


CHECKS = (
    check_lines,
    check_contents,
    check_generated,
    check_folders,
    check_sentences,
    check_version,
)


def findings_of(top, crates):
    """What all checks find."""
    findings = []
    for check in CHECKS:
        check(top, crates, findings)
    return findings
