"""What explain and picture say of several phases and lanes."""

import json

from common import asked, check
from wgsim.matching import explained
from wgsim.pages import picture
from wgsim.reading import places
from wgsim.reading import script as scripts

LANES = """{"budget":1,"phases":[[[{"do":"createBuffer","size":16,"usage":8,"as":"b"},{"do":"createEncoder","as":"e"},
{"do":"clearBuffer","on":"e","buffer":"b"},{"do":"finish","on":"e","as":"c"}]],\
[[],[{"do":"destroy","object":"b"}],[{"do":"submit","buffers":["c"]}]]]}"""

OF_LANES = """history
0 0 createBuffer made 0 valid
1 0 createEncoder made 1 valid
2 0 finish made 2 valid
3 2 submit op 1
4 1 destroy plain
trace
step 0 op 1 clearBuffer
use b 0 copy-dst
acc write b 0 0 16
end
"""

PASSES = [
    "createEncoder as e", "beginComputePass on e as p", "beginComputePass on e as q", "end on q", "pushDebugGroup on q", "end on p",
    "end on p", "finish on e as c", "pushDebugGroup on e",
]

# A buffer that one lane destroys and a bind group that it drops, while another records an encoder that is refused, and submits a good one.
RACING = """{"budget":1000,"phases":[[[{"do":"createBuffer","size":16,"usage":12,"as":"b"},
{"do":"createBuffer","size":16,"usage":12,"as":"d"}]],
[[{"do":"createEncoder","as":"e"},{"do":"clearBuffer","on":"e","buffer":"b"},
{"do":"clearBuffer","on":"e","buffer":"d"},{"do":"finish","on":"e","as":"c"},
{"do":"createEncoder","as":"f"},{"do":"clearBuffer","on":"f","buffer":"b"},{"do":"finish","on":"f","as":"g"},
{"do":"submit","buffers":["g"]}],
[{"do":"drop","object":"d"},
{"do":"destroy","object":"b"}]]]}"""

OF_RACING = """history
0 0 createBuffer made 0 valid
1 0 createBuffer made 1 valid
2 1 drop plain
3 0 createEncoder made 2 valid
4 0 finish made 3 invalid fault validation 11 uncaptured
5 0 createEncoder made 4 valid
6 1 destroy plain
7 0 finish made 5 valid
8 0 submit plain fault validation 192 uncaptured
trace
free b 1
free b 0
end
"""


class InTurns:
    """A program that has one report for a script, and is asked about all others."""

    said = "a program of one order"
    plays = True

    def __init__(self, data, report):
        self.data, self.report = data, report

    def ask(self, data):
        return (0, self.report) if data == self.data else asked.ask(data)


def test_lanes():
    """What explain and picture say of several phases and lanes goes by the order of the report, and not by that of the text or of another
    run."""
    program = InTurns(RACING.encode(), OF_RACING.encode())
    told, status = explained.explain(places.Text(RACING.encode(), "S"), RACING.encode(), program)
    check(status == 0 and "cannot match" not in told, f"lanes: explain cannot match script and report:\n{told}")
    for words in (
        "FAULT at entry 4: S:4:44\n",
        "the command that names what was dropped before the encoder was made is number 2 of 2: S:4:1\n",
        "    d: drop at S:7:2\n",
        "FAULT at entry 8: S:6:1\n",
        "    b: destroy at S:8:1\n",
        '   2  7:2  phase 1  lane 1  {"do":"drop","object":"d"}\n',
        '   7  5:76  phase 1  lane 0  {"do":"finish","on":"f","as":"g"}\n      makes g, object 5, valid\n',
        "release  the memory of d\n",
    ):
        check(words in told, f"lanes: explain does not say `{words}`:\n{told}")
    page, status = picture.picture(places.Text(RACING.encode(), "S"), RACING.encode(), program)
    check(
        status == 0 and "line 6: submit breaks rule 192" in page,
        "lanes: the picture does not show the submit that has a fault at its place",
    )
    other = OF_RACING.replace("2 1 drop", "2 0 drop")
    said = []
    explained.set_beside(places.Text(RACING.encode(), "S"), other, lambda *lines: said.extend(lines))
    check(
        "entry 2 is of drop, and the call at S:3:3 is createEncoder" in " ".join(said), f"lanes: a report of another order is taken: {said}"
    )


def test_to_come():
    """Several lanes and phases, whose entries may come in any order of the lanes, and passes: what of their calls is late."""
    beside = explained.set_beside(places.Text(LANES.encode(), "S"), OF_LANES, lambda *lines: check(False, f"lanes: {lines}"))
    found = {entry: call.word for entry, call in beside.call_of.items()}
    check(found == {0: "createBuffer", 1: "createEncoder", 2: "finish", 3: "submit", 4: "destroy"}, f"lanes: {found}")
    check(
        beside.command_of[0].word == "clearBuffer" and beside.named("b", 0) == "b",
        "lanes: a step has not its command, or a part not its name",
    )
    calls_of = [dict(zip(["do", *call.split()[1::2]], [call.split()[0], *call.split()[2::2]])) for call in PASSES]
    text = json.dumps({"budget": 1, "phases": [[calls_of]]})
    script = scripts.read(places.Text(text.encode(), "S"))
    late = [n for n, call in enumerate(script.calls) if call.is_late]
    check(late == [6, 8], f"passes: late are {late}")
