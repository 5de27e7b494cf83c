"""The definitions that the public contracts cite, read off the sources as text.

A definition is a word that a file of `crates/*/specs` declares with `pub`. A public call is a `pub fn` that other crates can name: its
module is public, or its crate passes it, or the type that it is a method of, on by `pub use`; or it is a method of a public trait. A
definition is cited where a clause of such a call (`requires`, `ensures`) has its name, and the file brings that in by `ghost use`.
"""

from __future__ import annotations

import pathlib
import re
from typing import Match, Tuple

# A definition: its crate, its file and its name.
Definition = Tuple[str, str, str]
DECLARED = re.compile(r"^(?:(?:abbrev|unfoldable) pub|pub (?:record|data)) ([^\s:({]+)", re.M)
BROUGHT = re.compile(r"ghost use Rattle\.(wg_\w+)\.specs\.(\w+)\.\{([^}]*)\}")
PASSED_ON = re.compile(r"^pub use \w+(?:::\w+)*::(?:\{([^}]*)\}|(\w+));", re.M)
WORD = re.compile(r"[A-Za-z_][A-Za-z_0-9]*")
HEAD = re.compile(
    r"^(?P<indent> *)(?P<public>pub )?(?P<sort>fn|trait|impl)\b(?P<rest>[^\n]*)|\b(?P<clause>requires|ensures)\b[^{\n]*\{", re.M
)


def declared(top: pathlib.Path) -> set[Definition]:
    """The public definitions, as crate, file and name."""
    found = set()
    for path in sorted(top.glob("crates/*/specs/*.antt")):
        crate = path.parent.parent.name
        found.update((crate, path.stem, name) for name in DECLARED.findall(path.read_text(encoding="utf-8")))
    return found


def exported(crate: pathlib.Path) -> tuple[set[str], set[str]]:
    """The modules of a crate that are public, and the names that it passes on."""
    text = (crate / "src/lib.rt").read_text(encoding="utf-8")
    modules = {"lib", *re.findall(r"^pub mod (\w+);", text, re.M)}
    names = set()
    for several, one in PASSED_ON.findall(text):
        names.update(WORD.findall(several or one))
    return modules, names


def clause_at(text: str, start: int) -> set[str]:
    """The words of a clause, from behind its brace up to the one that closes it."""
    depth, end = 1, start
    while depth and end < len(text):
        depth += (text[end] == "{") - (text[end] == "}")
        end += 1
    return set(WORD.findall(text[start : end - 1]))


def public_words(text: str, is_public_module: bool, names: set[str]) -> set[str]:
    """All words in clauses of the public calls of a file."""
    words, block, public = set(), ("", False), False
    for head in HEAD.finditer(text):
        if head["clause"]:
            if public:
                words |= clause_at(text, head.end())
        elif head["sort"] == "fn":
            named = WORD.search(head["rest"])
            inside, whole = block if head["indent"] else ("", False)
            known = named is not None and (named[0] in names or inside in names)
            public = whole if whole else bool(head["public"]) and (is_public_module or known)
        else:
            block = block_of(head, is_public_module, names)
    return words


def block_of(head: Match[str], is_public_module: bool, names: set[str]) -> tuple[str, bool]:
    """The type or trait that a block of functions is of, and whether all of its functions are public."""
    rest = re.sub(r"<[^>]*>", "", head["rest"])
    named = WORD.findall(rest)
    if head["sort"] == "trait":
        return named[0], bool(head["public"]) and (is_public_module or named[0] in names)
    return ("" if " for " in rest or not named else named[0]), False


def brought_in(text: str) -> dict[str, Definition]:
    """What each name of a file stands for, as crate, file and name of the definition."""
    found = {}
    for crate, stem, names in BROUGHT.findall(text):
        for name in names.split(","):
            whole, _, other = name.strip().partition(" as ")
            found[(other or whole).strip()] = (crate, stem, whole.strip())
    return found


def cited(top: pathlib.Path) -> dict[Definition, pathlib.Path]:
    """Each definition that a public contract cites, with a file that does so."""
    known, found = declared(top), {}
    for crate in sorted((top / "crates").glob("*/")):
        if not (crate / "src/lib.rt").is_file() or crate.name.endswith("_tests"):
            continue
        modules, names = exported(crate)
        for path in sorted((crate / "src").glob("*.rt")):
            text = path.read_text(encoding="utf-8")
            words = public_words(text, path.stem in modules, names)
            for name, definition in brought_in(text).items():
                if name in words and definition in known:
                    found.setdefault(definition, path)
    return found
