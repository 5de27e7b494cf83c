"""What explain says of each example and case: its faults, its settlements, and what of a recording is to blame."""

import difflib
import json
import re

from common import answered, asked, check
from wgsim.matching import explained, given
from wgsim.reading import places
from wgsim.reading import report as reports


# The rule of a pass's end that asks how often it draws. An end that is put behind a draw would have it before the one that is there.
OF_AN_END = 404


def recorded(lane):
    """The numbers of the commands of the encoder that the last call of a lane finishes, and of its passes, without the late ones.

    And what they leave open, by the numbers of the commands that opened it: a list of the begin of the open pass, or of none, and of
    the encoder and each pass its pushes of debug groups; and a list of the begin of the query that is active in the open pass."""
    on = lane[-1]["on"]
    own, begun, ended, begin, pushes, active = [], {on}, set(), [], {}, []
    for n, call in enumerate(lane[:-1]):
        place = call.get("on")
        if place not in begun - ended or call["do"] == "finish":
            continue
        own.append(n)
        is_here = place == (lane[begin[0]]["as"] if begin else on)
        if call["do"] in ("beginComputePass", "beginRenderPass"):
            begun.add(call["as"])
            begin = begin or [n]
        elif call["do"] == "end" and is_here:
            ended.add(place)
            begin, active = [], []
        elif call["do"] == "beginOcclusionQuery" and is_here:
            active = [n]
        elif call["do"] == "endOcclusionQuery" and is_here:
            active = []
        elif call["do"] == "pushDebugGroup" and is_here:
            pushes.setdefault(place, []).append(n)
        elif call["do"] == "popDebugGroup" and is_here:
            pushes.get(place, [])[-1:] = []
    return own, begin, pushes, active


def taken_before(beside, call):
    """The calls that the device took up to one, in their order, those of several lanes too, as one lane."""
    return [json.loads(beside.script.text.of(each.value)) for each in beside.turns[: beside.turns.index(call) + 1]]


def rule_with(script, lane, kept, ends_passes=True):
    """The rule that the finish which ends a lane has with the first commands of its encoder alone, among the calls that make objects,
    bundles with what is recorded in them too, and drop them.

    What these commands leave open is closed, a pass where that is asked."""
    own, makers = recorded(lane)[0], [
        n
        for n, call in enumerate(lane)
        if call["do"].startswith("create") or call["do"] in ("getBindGroupLayout", "finishBundle", "currentTexture")
    ]
    of_canvases = [n for n, call in enumerate(lane) if "canvas" in call]
    drops = [n for n, call in enumerate(lane) if call["do"] == "drop" and call["object"] in {lane[maker]["as"] for maker in makers}]
    bundle_encoders = {lane[maker]["as"] for maker in makers if lane[maker]["do"] == "createBundleEncoder"} - {lane[-1].get("on")}
    bundled = [n for n, call in enumerate(lane) if call.get("on") in bundle_encoders]
    left = {*makers, *of_canvases, *drops, *bundled, *own[:kept], len(lane) - 1}
    cut = [call for n, call in enumerate(lane) if n in left]
    _, begin, pushes, active = recorded(cut)
    for name in [cut[n]["as"] for n in begin] + [cut[-1]["on"]]:
        if name != cut[-1]["on"] and not ends_passes:
            continue
        closing = [{"do": "popDebugGroup", "on": name} for _ in pushes.get(name, [])]
        if name != cut[-1]["on"]:
            closing += [{"do": "endOcclusionQuery", "on": name} for _ in active] + [{"do": "end", "on": name}]
        cut[-1:-1] = closing if kept is not None else []
    fault = reports.Report(asked.ask(json.dumps({**script, "phases": [[cut]]}).encode())[1].decode()).entries[-1].fault
    return fault[1] if fault else None, own


def first_of(script, lane):
    """By another way than the tool's, one by one: the first command with which the finish has the rule of the whole recording, or None
    where that needs no command."""
    whole, own = rule_with(script, lane, None)
    for kept in range(len(own) + 1):
        if rule_with(script, lane, kept, whole != OF_AN_END)[0] == whole:
            return (own[kept - 1] if kept else None), whole
    return None, whole


def test_explained(path):
    """Each call that is wrong is named at its place with its rule's sentence; of a finish also the command that invalidated the encoder."""
    status, report = answered(path)
    data = path.read_bytes()
    text = places.Text(data, "S")
    told, ended = explained.explain(text, data, asked)
    check(ended == status, f"{path.name}: explain ends with {ended}")
    if status == 3:
        check(re.search(r"^S:\d+:\d+$", told, re.M) and "expected:" in told, f"{path.name}: explain tells no place:\n{told}")
        return
    check("cannot match" not in told, f"{path.name}: explain cannot match report and script")
    script, beside = json.loads(data), explained.set_beside(text, report.decode(), lambda *lines: None)
    pieces = dict(re.findall(r"^FAULT at entry (\d+): (.*?)(?=^FAULT at entry|^follows from|^HISTORY)", told, re.M | re.S))
    follow = dict(re.findall(r"^follows from entry (\d+): entry (\d+), S:.* \(rule 12\)$", told, re.M))
    own = set(re.findall(r"^follows from entry \d+: entry (\d+), ", told, re.M))
    check(set(follow) <= set(pieces), f"{path.name}: what follows does not follow from a fault that is told: {follow}")
    faults = [entry for entry in beside.report.entries if entry.fault and str(entry.number) not in own]
    check(len(pieces) == len(faults), f"{path.name}: explain has {len(pieces)} faults of {len(faults)}, with {len(own)} that follow")
    for entry in faults:
        call, piece = beside.call_of[entry.number], pieces.get(str(entry.number), "")
        number = entry.fault[1]
        where = f"{path.name}, entry {entry.number}"
        check(piece.startswith(beside.script.where(call) + "\n"), f"{where}: not at its call")
        check(f"rule {number} asks of " in piece and 'WebGPU, "' in piece, f"{where}: no sentence of rule {number}:\n{piece}")
        if entry.word == "finish":
            check_command(where, script, call, beside, piece, number)


def test_settled(path):
    """Each settlement is told, with the call that made its promise; each scope that catches a fault with the call that opened it."""
    status, report = answered(path)
    if status == 3:
        return
    data = path.read_bytes()
    told = explained.explain(places.Text(data, "S"), data, asked)[0]
    entries = reports.Report(report.decode()).entries
    settled = [(entry, promise, how) for entry in entries for promise, how in entry.settled]
    lines = re.findall(r"^      settles (its promise at once|the promise of entry (\d+) at \d+:\d+): (.*)$", told, re.M)
    check(len(lines) == len(settled), f"{path.name}: explain has {len(lines)} settlements of {len(settled)}")
    for (entry, promise, how), (said, number, more) in zip(settled, lines):
        is_right = number == str(promise) if promise != entry.number else said == "its promise at once"
        check(is_right and more.startswith(how), f"{path.name}: explain tells {how} of the promise of entry {promise} as {said}: {more}")
    caught = sum(entry.fault[2] != "uncaptured" for entry in entries if entry.fault)
    opened = len(re.findall(r"^    error scope \d+ was opened for (?:validation|out-of-memory) errors at S:\d+:\d+$", told, re.M))
    check(opened == caught, f"{path.name}: explain names {opened} error scopes of {caught} that caught something")
    check(
        told.count("LOST at entry") == any(entry.word == "lose" for entry in entries), f"{path.name}: explain does not tell the loss once"
    )


def check_command(where, script, call, beside, piece, number):
    """The command that a finish's explanation names is the right one."""
    named = re.search(r"^    the command that .* is number \d+ of \d+: (\S+)$", piece, re.M)
    lane = taken_before(beside, call)
    is_first = beside.script.places[call.value.member("on").what].finish is call
    if number in (182, 183):
        _, begin, pushes, _ = recorded(lane)
        expected = (begin if number == 182 else pushes[lane[-1]["on"]])[0]
    else:
        expected, rule = first_of(script, lane) if is_first else (None, number)
        check(rule == number, f"{where}: asked alone, the finish has rule {rule}")
    at = beside.script.where(beside.turns[expected]) if expected is not None else None
    check((named[1] if named else None) == at, f"{where}: the command to blame is at {at}, and named is {named[1] if named else None}")


def test_given(path):
    """Of a report that is there explain tells what it tells of the play that brought it: also the command of each finish, which it then has
    from the second reading."""
    data, report = path.read_bytes(), answered(path)[1]
    text = places.Text(data, "S")
    told = [explained.explain(text, data, program)[0].split("\n", 1)[1] for program in (asked, given.Given(report, "R", text))]
    played = re.sub(r"^    \(found by asking .*\n", "", told[0], flags=re.M)
    check(
        played == told[1],
        f"{path.name}: explain tells another thing of the report alone:\n"
        + "\n".join(difflib.unified_diff(played.splitlines(), told[1].splitlines(), lineterm="", n=1)),
    )
