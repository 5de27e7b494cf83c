"""A search for imports that nothing uses, in what crates define and in their code.

A name that a file brings in by `use` or `ghost use` is used where it stands in the rest of the file, comments aside; an operator, as ◌+◌,
where all its parts do; and also where it stands in a macro of the crate that the file uses. Not looked at are imports that are passed on
(`pub use`), and what may be a trait, whose calls do not name it: a trait of the repository, and what begins with a capital of a library of
the toolchain. """

import re

IMPORT = re.compile(
    r"^[ ]*(?P<passed>pub )?(?P<ghost>ghost )?use (?P<path>[^;\n{]*)(?:\{(?P<names>[^}]*)\})?(?P<other> as \w+)?;?[ ]*$", re.M
)
TRAIT = re.compile(r"\btrait (\w+)")
MACRO = re.compile(r"^macro_rules! (\w+) \{\n(.*?)^\}", re.M | re.S)
WORD = re.compile(r"\w+")
HOLE = "◌"


def without_comments(text, mark):
    return re.sub(rf"(?<!\S){mark}.*|{mark}[/!].*", "", text)


def names_of(found):
    """What an import brings in, each name as the file has it."""
    path = found["path"].strip()
    if found["names"] is None:
        last = re.split(r"::|\.", path)[-1]
        yield (found["other"] or last).split(" as ")[-1].strip()
        return
    for name in re.sub(r"\w+::\{|\}", "", found["names"]).split(","):
        whole, _, other = name.strip().partition(" as ")
        if whole:
            yield (other or re.split(r"::", whole)[-1]).strip()


def is_used(name, rest, words):
    """Whether a name, or an operator, stands in the rest of a file."""
    if name in ("self", "*", "_", ""):
        return True
    if HOLE in name:
        return all(part in rest for part in name.split(HOLE) if part)
    return name in words if WORD.fullmatch(name) else name in rest


def may_be_trait(name, path, traits, crates):
    return name in traits or (name[:1].isupper() and re.split(r"::", path)[0] not in {*crates, "crate", "self", "super"})


def unused_in(text, is_code, traits, crates, macros):
    """The names that a file brings in and does not use. `macros` has the text of each macro of its crate."""
    text = without_comments(text, "//" if is_code else "--")
    imports = list(IMPORT.finditer(text))
    rest = IMPORT.sub("", text)
    rest += "".join(body for macro, body in macros.items() if f"{macro}!" in rest)
    words = set(WORD.findall(rest))
    for found in imports:
        for name in names_of(found) if not found["passed"] else ():
            is_plain = is_code and not found["ghost"]
            if not is_used(name, rest, words) and not (is_plain and may_be_trait(name, found["path"], traits, crates)):
                yield name


def unused(top, crates):
    """A line for each file that brings in what it does not use, crate by crate."""
    traits = set()
    for path in (top / "crates").glob("*/src/**/*.rt"):
        traits.update(TRAIT.findall(path.read_text(encoding="utf-8")))
    for crate in crates:
        code = [path.read_text(encoding="utf-8") for path in (top / "crates" / crate / "src").rglob("*.rt")]
        macros = dict(pair for text in code for pair in MACRO.findall(text))
        for part, suffix in (("specs", "antt"), ("src", "rt")):
            for path in sorted((top / "crates" / crate / part).rglob(f"*.{suffix}")):
                names = list(unused_in(path.read_text(encoding="utf-8"), suffix == "rt", traits, crates, macros))
                if names:
                    yield f"{path.relative_to(top)}: nothing uses {', '.join(names)}"
