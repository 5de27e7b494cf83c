"""What explain, picture, verify and run --callers say of canvases and their frames."""

import html
import json
import re

from common import TOP, asked, check
from wgsim.matching import explained, fault_objects, orders, verified
from wgsim.pages import picture
from wgsim.reading import places
from wgsim.reading import script as scripts

# A lane whose canvas has a frame with two names, of which the second comes behind its last entry, and an encoder of the next phase that
# uses it and is refused; beside it a lane with a canvas and no entry.
OVER_PHASES = """{"budget":1000000,"phases":[[[{"do":"createCanvas","width":4,"height":4,"as":"k"},
{"do":"configureCanvas","canvas":"k","format":"rgba8unorm"},
{"do":"currentTexture","canvas":"k","as":"t"},
{"do":"currentTexture","canvas":"k","as":"u"}],[{"do":"createCanvas","width":4,"height":4,"as":"l"}]],
[[],[{"do":"createView","texture":"u","as":"v"},
{"do":"createEncoder","as":"e"},
{"do":"beginRenderPass","on":"e","colors":[{"view":"v","load":"clear","store":"store"}],"as":"p"},
{"do":"end","on":"p"},
{"do":"copyTextureToTexture","on":"e","source":"u","target":"t","size":[1,1,1]},
{"do":"finish","on":"e","as":"c"}]]]}"""

RACE = TOP / "tests/cases/canvas/two-lanes.json"


def told_of(text, name="S"):
    return explained.explain(places.Text(text.encode(), name), text.encode(), asked)[0]


def test_frames():
    """The frames of the example by their numbers and names, in the entries, in a list, at each release, and as JSON."""
    text = (TOP / "examples/canvas-frames.json").read_text(encoding="utf-8")
    told = told_of(text)
    for words in (
        "makes second, object 4, valid: frame 2 of canvas",
        "ends frame 2 of canvas, and destroys its texture second",
        "canvas, 64 by 64, made at 4:5",
        "frame 1: first, object 0, valid, from 6:5 up to the present at 13:5",
        "frame 2: second (also second_again), object 4, valid, from 14:5 up to the present at 22:5",
        "release  the memory of third, frame 3 of canvas",
        'was presented at 29:5, as frame 3 of "canvas" (4:5)',
    ):
        check(words in told, f"explain of canvas-frames does not say `{words}`:\n{told}")
    listed = json.loads(fault_objects.explained(places.Text(text.encode(), "S"), text.encode(), asked)[0])
    found = {each["entry"]: (each["do"], each["canvas"], each["frame"]) for each in listed if each["kind"] == "status" and "canvas" in each}
    steps = [("currentTexture", "canvas", n) for n in (1, 2, 3)], [("present", "canvas", n) for n in (1, 2, 3)]
    check(found == dict(zip((0, 6, 12, 5, 11, 16), sum(steps, []))), f"canvas-frames as JSON has the frames {found}")
    fault = next(each for each in listed if each["kind"] == "fault")
    check(
        (fault["values"]["canvas"], fault["values"]["frame"], fault["values"]["byCall"]) == ("canvas", 3, "present"),
        f"canvas-frames as JSON has the values {fault['values']}",
    )
    page = html.unescape(picture.picture(places.Text(text.encode(), "S"), text.encode(), asked)[0])
    names = set(re.findall(r"data-row='\d+' aria-label='(.*?)'", page))
    check(
        names == {"first frame 1 of canvas, mip 0 layer 0", "second frame 2 of canvas, mip 0 layer 0", "third frame 3 of canvas"},
        f"the picture of canvas-frames has the rows {names}",
    )
    check("1 canvas, 3 frames" in page and "frame 3: third, object 8" in page, "the picture of canvas-frames has no list of frames")


def test_names_of_frames():
    """A name that was given behind the last entry of a phase is known in the next one, also where a recording is cut short; a canvas
    without a frame is not listed."""
    told = told_of(OVER_PHASES)
    for words in (
        "frame 1: t (also u), object 0, valid, from 3:1 to the end of its phase",
        "the command that invalidated the encoder is number 3 of 3: S:9:1",
        "breaks rule 270",
        '"t" (3:1) has usage 16 = RENDER_ATTACHMENT; COPY_SRC (1) is missing. Add it where "k" is configured, at 2:1.',
    ):
        check(words in told, f"explain of a frame over two phases does not say `{words}`:\n{told}")
    check("\nl, " not in told, f"explain lists a canvas that has no frame:\n{told}")


def test_events():
    """Of each call of a canvas the word of its entry, or none; what verify and run --callers say of the calls by their own words."""
    data = RACE.read_bytes()
    read = scripts.read(places.Text(data, "S"))
    events = [(call.word, call.event) for call in read.calls]
    right = [("createCanvas", None), ("configureCanvas", None), ("currentTexture", "createTexture")]
    check(events == right + [("present", "destroy")] + right + [("currentTexture", None)], f"the calls of two-lanes make {events}")
    report = RACE.with_suffix(".report").read_text(encoding="utf-8")
    wrong = report.replace("1 0 destroy plain", "1 0 submit plain")
    told, status = verified.verify((data, "two-lanes"), (wrong.encode(), "R"))
    check(status == 1 and "the next call of caller 0 is present, whose entry is destroy" in told, f"verify says of a wrong word:\n{told}")
    playing = orders.second.Played(data, "two-lanes").begin()
    check(
        orders.may_come(playing) == "in phase 0 the turn may be of caller 0 with its currentTexture or of caller 1 with its currentTexture",
        f"two-lanes begins so: {orders.may_come(playing)}",
    )
