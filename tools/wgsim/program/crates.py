"""The crates of the repository as crates.txt lists them: what each stands on, and a checksum of what it is made of."""

import functools
import hashlib
from typing import Callable, Dict, Iterable, List, Set, Tuple

from wgsim import TOP

LIST = TOP / "crates.txt"


def words() -> Dict[str, List[str]]:
    """The crates, each with what its line names: crates of the repository, and libraries of the toolchain."""
    lines = [line.split("#")[0] for line in LIST.read_text(encoding="utf-8").splitlines()]
    pairs = [line.split(":", 1) for line in lines if ":" in line]
    return {name.split()[0]: below.split() for name, below in pairs}


def listed() -> Dict[str, List[str]]:
    """The crates, each with those of the repository that its line names."""
    found = words()
    return {name: [word for word in below if word in found] for name, below in found.items()}


def needed(crate: str) -> List[str]:
    """The crates that one stands on, itself included."""
    return sorted(reached([crate], listed()))


def above(crates: Iterable[str]) -> Set[str]:
    """Some crates, and all that stand on one of them."""
    users: Dict[str, List[str]] = {}
    for name, below in listed().items():
        for each in below:
            users.setdefault(each, []).append(name)
    return reached(crates, users)


def reached(first: Iterable[str], following: Dict[str, List[str]]) -> Set[str]:
    """What is reached from some crates, these included."""
    found: Set[str] = set()
    waiting = list(first)
    while waiting:
        name = waiting.pop()
        if name not in found:
            found.add(name)
            waiting += following.get(name, [])
    return found


def longest(seconds: Callable[[str], float], below: Dict[str, List[str]]) -> Tuple[float, List[str]]:
    """The seconds of the dearest chain of crates that stand on one another, and its crates, the lowest first."""

    @functools.lru_cache(maxsize=None)
    def chain(crate: str) -> Tuple[float, Tuple[str, ...]]:
        took, names = max((chain(each) for each in below[crate]), default=(0.0, ()))
        return took + seconds(crate), (*names, crate)

    took, names = max((chain(crate) for crate in below), default=(0.0, ()))
    return took, list(names)


def sum_of(names: Iterable[str]) -> str:
    """A checksum of all that some crates are made of."""
    total = hashlib.sha256(LIST.read_bytes())
    for crate in names:
        for folder in ("src", "specs", "proofs"):
            for path in sorted((TOP / "crates" / crate / folder).rglob("*")):
                if path.is_file():
                    total.update(f"{path.relative_to(TOP)}\n{path.stat().st_size}\n".encode())
                    total.update(path.read_bytes())
    return total.hexdigest()
