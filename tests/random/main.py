"""Compares a program with the second implementation in model/, on random scripts.

Each script comes of a seed. Some are good and test the borders of each rule, do mixed work, drop much under a small budget, make layouts,
bind groups and pipelines, of which many derive their layouts, dispatch in compute passes, draw in render passes, count what is drawn by
query sets, execute bundles, draw frames of canvases, or set buffers in many pieces; some lose their device before any of their calls; many
ask for limits; some have labels; some are malformed, and some are good ones of which bytes are flipped, cut out or repeated; a few fixed
ones stand at the limits of size, and at each limit that can be asked for. About a quarter have several phases and lanes. Exit status and
bytes have to be equal. Where lanes run at once the model plays them in the order of the program's report, that is by the callers of its
entries, which has to be one of the orders that there can be. Each report is also read by itself: behind a loss nothing is valid, queued or
refused, and what has a fault does nothing. Other seeds make texts that are to be checked, small traces of anything, reports with lines
changed, and reports with bytes spoiled; there the verdict on a small trace is held to one that tries all orders too. Of a difference the
seed is named and the script or the text is written to a file. At the end stands how often each rule was met and unmet, part by part as
`what met/unmet`, and in how many scripts the callers came in turns.

Ends with 1 if there was a difference.
"""

import argparse
import collections
import concurrent.futures
import os
import pathlib
import random
import re
import subprocess
import sys
import tempfile

import fixed
import limited

from model import answers, calls, judge, rules, trace_text
from shared import all_orders, checked_texts, read_off, small_traces
from wgsim.random_scripts import sorts, spoiled

TOP = pathlib.Path(__file__).resolve().parents[2]


TIMEOUT = 300
# Longer reports are not judged, since that takes long.
JUDGED_BYTES = 100_000
# How many scripts are begun at most whose results were not looked at yet, so that results do not pile up.
MOST_BEGUN = 1_000
FIXED = fixed.FIXED | limited.FIXED | checked_texts.FIXED
SORTS = [
    "borders", "mixed", "long", "holders", "groups", "passes", "rendering", "queries", "bundles", "canvases", "malformed", "lanes",
    "malformed lanes", "pieces", "checked orders", "checked reports", "losses", "spoiled bytes", "checked bytes",
]
WEIGHTS = [18, 12, 1, 14, 30, 36, 54, 36, 54, 48, 42, 54, 28, 12, 60, 60, 18, 24, 12]
CHECKED = ["checked orders", "checked reports", "checked bytes"]

# What no script of today can leave unmet.
UNREACHABLE = {
    10: "names stand for objects of the one device",
}


def arguments():
    parser = argparse.ArgumentParser(prog="tests/random/run", description=__doc__.split("\n", maxsplit=1)[0])
    parser.add_argument("--program", default=TOP / "crates/wgsim/out/wgsim", help="runs as PROGRAM run < SCRIPT")
    parser.add_argument("--count", type=int, default=2000, help="how many random scripts")
    parser.add_argument("--seed", type=int, default=1, help="the seed of the first; the next ones count on")
    parser.add_argument(
        "--only", help="runs only those whose names begin so: of the sorts of seeds, as `rendering`, and of the fixed ones, as `limit-`"
    )
    parser.add_argument("--alone", action="store_true", help="runs the model alone, and tells how often it met each rule")
    parser.add_argument("--jobs", type=int, default=len(os.sched_getaffinity(0)), help="how many processes")
    parser.add_argument("--folder", help="where scripts of differences are written; else a new folder")
    return parser.parse_args()


def sort_of(seed):
    return random.Random(seed).choices(SORTS, WEIGHTS)[0]


def script_of(seed):
    """The sort and the bytes of the script of a seed, or of the text that is to be checked."""
    chance = random.Random(seed)
    sort = chance.choices(SORTS, WEIGHTS)[0]
    if sort == "checked orders":
        return sort, small_traces.small_text(chance)
    if sort == "checked reports":
        return sort, small_traces.changed(chance, report_of(chance))
    if sort == "checked bytes":
        text = small_traces.text_of(report_of(chance))
        first = text.index(b"trace\n") if chance.random() < 0.9 else 0
        return sort, text[:first] + spoiled.spoiled(chance, text[first:], spoiled.OF_REPORTS)
    return sort, sorts.script_of(chance, sort)


def report_of(chance):
    """The lines of the report of some script that is not refused, in some order of turns."""
    while True:
        sort, data = script_of(chance.randrange(2**48))
        status, text = (judge.BAD_TRACE, "") if sort in CHECKED else answers.answer(data, chance.choice)
        if status == answers.DONE:
            return text.removesuffix("\n").split("\n")


def compare_check(program, name, data):
    """The same for a text that is to be checked, by the judge, and where it is a small trace by all orders too."""
    rules.met.clear()
    rules.unmet.clear()
    found, wrong, wanted = (None, b"") if program is None else found_by(program, data, "check"), None, None
    try:
        status, text = answers.check(data)
        wanted = status, text
        if "orders" in name and status != judge.BAD_TRACE:
            wrong = by_all_orders(data)
        rules.note("check", 0, text.split(" ")[0].strip() if status != judge.BAD_TRACE else text.strip().rsplit(" ", 1)[0], True)
    except Exception as error:  # A fault of the judge is a difference too.
        wrong = f"the judge failed: {error!r}"
    if wrong is None and program is not None and found != (status, text.encode()):
        wrong = (
            f"it answers {found[1].decode(errors='backslashreplace')!r} with status {found[0]}, and is to answer {text!r} with status"
            f" {status}"
        )
    different = None if wrong is None else (wrong, found, wanted, data)
    return name, found[0], 0, different, dict(rules.met), dict(rules.unmet)


def by_all_orders(data):
    """What is wrong with the verdict on a small trace, by all orders of it, or None."""
    items = [item for _, item in trace_text.read(data)]
    found, tried = judge.verdict(items), all_orders.clashes(items)
    least = min(tried, key=lambda one: (judge.place_of(one[0]), judge.order_of(one[1]), one[2]), default=None)
    if found != least:
        return f"the judge finds {found}, and by all orders it is {least}"
    if {one[:2] for one in tried} != all_orders.readers_that_differ(items):
        return "a reader that differs in some order has no writer, or one that has differs in none"
    return None


def compare(program, name, data):
    """Runs both on a script, or the model alone, in some order of turns. The answer has the status, how many turns went to another caller
    than the one before, what is wrong with what the program gave, if it is, and which rules the model tested."""
    rules.met.clear()
    rules.unmet.clear()
    found = (None, b"") if program is None else found_by(program, data)
    try:
        if program is None:
            status, text = answers.answer(data, random.Random(name).choice)
            found, wanted, wrong = (status, text.encode()), None, None
        else:
            wrong, wanted = answers.differences(data, *found)
        if wrong is None and found[0] == answers.DONE:
            wrong = read_off.wrong_in(found[1].decode())
        if wrong is None and found[0] == answers.DONE and len(found[1]) <= JUDGED_BYTES and answers.check(found[1])[0] != judge.AGREES:
            wrong = f"its trace is judged as {answers.check(found[1])[1]!r}"
    except Exception as error:  # A fault of the model is a difference too, whatever it is.
        wrong, wanted = f"the model failed: {error!r}", None
    different = None if wrong is None else (wrong, found, wanted, data)
    return name, found[0], turns_in(found[1]), different, dict(rules.met), dict(rules.unmet)


def found_by(program, data, word="run"):
    try:
        run = subprocess.run([program, word], input=data, capture_output=True, timeout=TIMEOUT, check=False)
        return run.returncode, run.stdout
    except subprocess.TimeoutExpired:
        return None, b""


def turns_in(text):
    """How often a caller comes again in a report after another one came."""
    callers = re.findall(rb"^\d+ (\d+) ", text.split(b"\ntrace\n")[0], re.M)
    runs = [one for one, before in zip(callers, [None, *callers]) if one != before]
    return len(runs) - len(set(runs))


def compare_seed(program, seed):
    sort, data = script_of(seed)
    return (compare_check if sort in CHECKED else compare)(program, f"seed {seed} ({sort})", data)


def compare_fixed(program, name):
    return (compare_check if name in checked_texts.FIXED else compare)(program, name, FIXED[name]())


def results_of(pool, tasks):
    """The results of tasks, in their order. None is kept once it was given, and only so many tasks are begun ahead of the one that is given
    next."""
    begun = collections.deque()
    for task in tasks:
        if len(begun) == MOST_BEGUN:
            yield begun.popleft().result()
        begun.append(pool.submit(*task))
    while begun:
        yield begun.popleft().result()


def tell_difference(folder, name, wrong, found, wanted, data):
    """Writes the script and both answers, that of the model in the order of the program's where there is one, and says in a line what is
    wrong."""
    base = pathlib.Path(folder) / re.sub(r"\W+", "-", name).strip("-")
    base.with_suffix(".json").write_bytes(data)
    base.with_suffix(".program").write_bytes(found[1])
    if wanted is not None:
        base.with_suffix(".model").write_text(wanted[1], encoding="utf-8")
    print(f"{name}: {wrong}; see {base}.json", flush=True)


def rules_in(document, is_script):
    """The rules that a document numbers, by the call of their row."""
    found, call = [], ""
    for row in (TOP / "docs" / document).read_text(encoding="utf-8").splitlines():
        cells = [cell.strip() for cell in row.split("|")]
        if len(cells) < 4 or not re.fullmatch(r"[\d, ]+", cells[1 if is_script else 2]):
            continue
        call = "script" if is_script else re.split(", | of ", cells[1])[0] or call
        found += [(call, int(number)) for number in cells[1 if is_script else 2].split(",")]
    return [pair for pair in found if is_script or pair[0] in calls.CALLS or pair[0] == "late"]


def tell_rules(met, unmet):
    """A line a rule, then the rules and the parts of rules that no script left unmet."""
    tested = set(met) | set(unmet)
    rows = collections.defaultdict(list)
    for call, number, what in sorted(tested):
        rows[(call, number)].append(f"{what} {met[(call, number, what)]}/{unmet[(call, number, what)]}")
    for (call, number), parts in rows.items():
        print(f"{call} {number}: {', '.join(parts)}")
    wanted = rules_in("rules.md", False) + rules_in("script.md", True)
    left_unmet = {(call, number) for call, number, _ in unmet}
    for pair in sorted(set(wanted) | set(rows)):
        if pair not in left_unmet:
            reason = UNREACHABLE.get(pair[1] if pair[0] != "script" else f"script {pair[1]}")
            reason = "only a lost device makes an invalid encoder, and it makes no fault" if pair == ("finish", 12) else reason
            print(f"never unmet: {pair[0]} {pair[1]}" + (f" (not by any script: {reason})" if reason else ""))
    for pair in sorted(set(wanted)):
        if pair not in {(call, number) for call, number, _ in met}:
            print(f"never met: {pair[0]} {pair[1]}")
    parts = [key for key in sorted(tested) if not unmet[key] and key[:2] in left_unmet and " of " not in key[2]]
    print("parts that were never unmet: " + ", ".join(f"{call} {number} {what}" for call, number, what in parts))


def main():
    words = arguments()
    program = None if words.alone else os.path.abspath(words.program)
    if program is not None and not os.access(program, os.X_OK):
        sys.exit(f"{program} is not there: `./wgsim prove` builds it")
    folder = words.folder or tempfile.mkdtemp(prefix="random-scripts-")
    met, unmet, statuses = collections.Counter(), collections.Counter(), collections.Counter()
    differences, in_turns = 0, 0
    with concurrent.futures.ProcessPoolExecutor(words.jobs) as pool:
        tasks = [(compare_fixed, program, name) for name in FIXED if words.only is None or name.startswith(words.only)]
        seeds = [seed for seed in range(words.seed, words.seed + words.count) if words.only is None or sort_of(seed).startswith(words.only)]
        tasks += [(compare_seed, program, seed) for seed in seeds]
        for name, status, turns, different, more_met, more_unmet in results_of(pool, tasks):
            in_turns += turns > 0
            statuses[status] += 1
            met.update(more_met)
            unmet.update(more_unmet)
            if different:
                differences += 1
                tell_difference(folder, name, *different)
    tell_rules(met, unmet)
    told = ", ".join(f"{count} of status {status}" for status, count in sorted(statuses.items(), key=str))
    print(f"{len(tasks)} scripts ({told}), {in_turns} of them with callers in turns: {differences} differences")
    if not words.folder and not differences:
        os.rmdir(folder)
    sys.exit(1 if differences else 0)


if __name__ == "__main__":
    main()
