"""Texts of which one object has very many members, which no script has: what the program answers, and what it takes for that."""

import itertools
import pathlib
import random
import resource
import string
import subprocess
from typing import Dict, Iterable, Iterator, List, NamedTuple

# How many members a text has, what it may take of a processor, and how often one that takes more is tried at most.
MEMBERS, MOST_SECONDS, TRIES = 400_000, 5.0, 3
# In which object of a text the members stand, and what the program writes: the object has a key that it may not have.
PLACES = {
    "the script": ('{"budget":1,%s,"phases":[]}', "bad script 2\n"),
    "a call": ('{"budget":1,"phases":[[[{"do":"workDone",%s}]]]}', "bad script 7 0 0 0\n"),
    "`limits`": ('{"budget":1,"limits":{%s},"phases":[]}', "bad script 14\n"),
}


class Text(NamedTuple):
    """A text with the members of one of its objects, and what the program writes."""

    title: str
    members: int
    text: bytes
    written: str


def shuffled(keys: Iterable[str]) -> List[str]:
    found = list(keys)
    random.Random(1).shuffle(found)
    return found


def orders(count: int) -> Dict[str, Iterable[str]]:
    """As many distinct keys of four letters, in several orders; and one key again and again, which counts once."""
    keys = ["".join(four) for four in itertools.islice(itertools.product(string.ascii_lowercase, repeat=4), count)]
    return {"in order": keys, "in reverse order": keys[::-1], "in a random order": shuffled(keys), "of one name": ["a"] * count}


def texts(count: int) -> Iterator[Text]:
    """The texts that have as many members."""
    for place, (around, written) in PLACES.items():
        for order, keys in orders(count).items():
            yield Text(f"members of {place}, {order}", count, (around % ",".join(f'"{key}":0' for key in keys)).encode(), written)


def seconds(program: pathlib.Path, text: Text) -> float:
    """What the program takes of a processor to answer a text, of which it is wanted that the answer is the right one."""
    before = resource.getrusage(resource.RUSAGE_CHILDREN)
    run = subprocess.run([str(program), "run"], input=text.text, capture_output=True, check=False)
    after = resource.getrusage(resource.RUSAGE_CHILDREN)
    if run.stdout.decode() != text.written:
        raise ValueError(f"{text.title}: {text.members:,} were answered by {run.stdout[:80]!r}, and not by {text.written!r}")
    return after.ru_utime + after.ru_stime - before.ru_utime - before.ru_stime


def least(program: pathlib.Path, text: Text) -> float:
    """The same, of some tries the least until one is in time: what else the machine does only adds to it."""
    took = seconds(program, text)
    for _ in range(TRIES - 1):
        took = min(took, seconds(program, text)) if took > MOST_SECONDS else took
    return took


def table(program: pathlib.Path) -> None:
    """Prints what each text takes, beside one of half its members."""
    print("| Text | Members | Seconds of a processor | With half the members |\n|---|--:|--:|--:|")
    for whole, half in zip(texts(MEMBERS), texts(MEMBERS // 2)):
        print(f"| {whole.title} | {whole.members:,} | {seconds(program, whole):.2f} | {seconds(program, half):.2f} |", flush=True)


def check(program: pathlib.Path) -> bool:
    """Says of each text what it takes, and whether all are answered rightly and in the time that they may take."""
    findings = 0
    for text in texts(MEMBERS):
        try:
            took = least(program, text)
            found = f"{text.title}: {text.members:,} took {took:.2f} seconds of a processor, and may take {MOST_SECONDS:.0f}"
            findings += took > MOST_SECONDS
        except ValueError as error:
            found = str(error)
            findings += 1
        print(found, flush=True)
    print(f"what texts with many members cost: {findings} findings")
    return not findings
