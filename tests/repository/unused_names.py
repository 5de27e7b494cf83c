"""A search for names that crates define and that nothing uses: definitions in their specs/, and lemmas in their proofs/.

A name that a file of these begins a line with is used where it stands elsewhere in its file, outside of its own definition; where another
file, of any crate, brings it in by `use` or `ghost use` and has it in its text; and where one names it by its path, as
`using(crate::proofs::File::name)` does, or behind the file's other name, as `other.name` does. What stands in a comment is no use. In a
folder that the proof of a function has below proofs/ the checker asks for what is `pub`, so only what is not is looked at there. """

import collections
import re

import imports

KEYWORDS = r"(?:(?:abbrev|data|pub|record|unfoldable) )*"
BEGINS = re.compile(rf"^{KEYWORDS}(?P<name>[^\s:(){{}}\[\]]+)")
WORD = re.compile(r"[^\s(){}\[\],;.:]+")
PATH = re.compile(r"\w[^\s(){}\[\],;.:]*(?:(?:::|\.)[^\s(){}\[\],;.:]+)+")
# What lies in a file that defines or uses names: its crate, its part of that (specs, proofs or src), its text and its words, with neither
# comments nor imports, and these.
File = collections.namedtuple("File", "crate part text words imports")


def file_of(crate, part, path):
    text = imports.without_comments(path.read_text(encoding="utf-8"), "//" if part == "src" else "--")
    rest = imports.IMPORT.sub("", text)
    return File(crate, part, rest, set(WORD.findall(rest)), list(imports.IMPORT.finditer(text)))


def files_of(top, crates):
    """Each file that defines or uses names, by its path."""
    for crate in crates:
        for part, suffix in (("specs", "antt"), ("proofs", "antt"), ("src", "rt")):
            for path in sorted((top / "crates" / crate / part).rglob(f"*.{suffix}")):
                yield path, file_of(crate, part, path)


def definitions(text):
    """The text of each name that a line begins with: its type, its equations and what is indented below them."""
    found, name = collections.defaultdict(list), None
    for line in text.splitlines():
        begins = BEGINS.match(line)
        if begins and begins["name"] not in ("unfolding", "="):
            name = begins["name"]
        if name:
            found[name].append(line)
    return {name: "\n".join(lines) for name, lines in found.items()}


def is_defined(name, text):
    """Whether the text has the name's type, so that it is no other line of a file."""
    return re.search(rf"^{KEYWORDS}{re.escape(name)}(?: [^=\n]*)? :(?: |$)", text, re.M) is not None


def is_asked(text, path, part):
    """Whether the checker may ask for what this text defines."""
    return part == "proofs" and path.parent.name != "proofs" and (path.stem == "Invariants" or text.startswith("pub "))


def within(name, text, words):
    """Whether a name, or an operator, stands in a text."""
    return all(part in text for part in name.split(imports.HOLE) if part) if imports.HOLE in name else name in words


def whole(path, crate, others):
    """A path as the imports of definitions have it, by the other names that a file gives to files."""
    first, *rest = re.sub(r"^Rattle\.", "", path.replace("::", ".")).split(".")
    return ".".join([crate if first == "crate" else others.get(first, first), *rest])


def used_by(file):
    """The whole path of each name of another file that a file uses."""
    others = {}
    for found in file.imports:
        path = found["path"].strip().rstrip(".:")
        if found["names"] is None:
            path, _, other = (path + (found["other"] or "")).partition(" as ")
            others[other.strip() or re.split(r"\.|::", path)[-1]] = whole(path.strip(), file.crate, {})
            yield whole(path.strip(), file.crate, {})
        for name in (found["names"] or "").split(","):
            mine, _, other = name.strip().partition(" as ")
            if found["passed"] or within((other or mine).strip(), file.text, file.words):
                yield f"{whole(path, file.crate, {})}.{mine.strip()}"
    for path in set(PATH.findall(file.text)):
        parts = whole(path, file.crate, others).split(".")
        yield from (".".join(parts[:count]) for count in range(2, len(parts) + 1))


def unused_in(path, file, module, used):
    """The names that a file defines and that nothing uses."""
    texts = definitions(file.text)
    words = {name: set(WORD.findall(text)) for name, text in texts.items()}
    counts = collections.Counter(word for each in words.values() for word in each)
    for name, text in texts.items():
        if name == "module" or f"{module}.{name}" in used or counts[name] > 1 or is_asked(text, path, file.part):
            continue
        others = "\n".join(other for key, other in texts.items() if key != name) if imports.HOLE in name else ""
        if is_defined(name, text) and not (others and within(name, others, ())):
            yield name


def unused(top, crates):
    """A line for each file that defines what nothing uses, crate by crate."""
    files = dict(files_of(top, crates))
    used = {name for file in files.values() for name in used_by(file)}
    for path, file in files.items():
        module = ".".join(path.relative_to(top / "crates").with_suffix("").parts)
        names = list(unused_in(path, file, module, used)) if file.part != "src" else []
        if names:
            yield f"{path.relative_to(top)}: nothing uses {', '.join(names)}, which it defines"
