"""What script and words write."""

import json
import re

from common import TOP, asked, check, ends_so, shell, wgsim
from wgsim.reading import report as reports

# The first numbers that the well known generator of 1103515245 and 12345 gives from 1 on.
DRAWN = (16838, 5758, 10113, 17515, 31051, 5627)


def test_script():
    """A generated script has the counts that the program counts of it, and its numbers are those of docs/script.md."""
    for words in (["1"], ["2"], ["7"], ["2", "3"], ["3", "4"]):
        text = ends_so(0, "script", *words)[0]
        status, report = asked.ask(text.encode())
        counts = reports.Report(report.decode()).counts()
        issued = len({entry.operation() for entry in reports.Report(report.decode()).entries} - {None})
        line = f"entries {counts['entries']} ops {issued} faults {counts['faults']} frees {counts['releases']}"
        line += f" bars {counts['barriers']} clears {counts['clears']}" if len(words) == 1 else ""
        check(
            status == 0 and wgsim("gen", *words).stdout.decode() == line + "\n",
            f"script {' '.join(words)}: the program plays it as `{line}`, and counts another",
        )
    lane = json.loads(ends_so(0, "script", "2", "1")[0])["phases"][1][0]
    for n, copy in enumerate(call for call in lane if call["do"] == "copyBufferToBuffer"):
        first, second, third = DRAWN[3 * n : 3 * n + 3]
        source = first % 8
        wanted = (f"b{source}", f"b{(source + 1 + second % 7) % 8}", 4 * (third % 256))
        check((copy["source"], copy["target"], copy["sourceOffset"]) == wanted, f"iteration {n} copies {copy}, and not {wanted}")
    whole = json.loads(ends_so(0, "script", "125", "64")[0])
    check(
        whole["budget"] == 1_000_000
        and [len(lanes) for lanes in whole["phases"]] == [1, 64, 1]
        and whole["phases"][2][0][0] == {"do": "complete", "op": 16_000},
        "script 125 64 has other phases",
    )
    check(len(ends_so(0, "script", "8000")[0]) <= 4_194_304, "script 8000 is longer than a script may be")
    for words in (["0"], ["8001"], ["200", "41"], ["1", "65"], ["1", "0"], ["01"], ["1.0"], ["x"], ["-1"]):
        check(not ends_so(2, "script", *words)[0], f"script {words} writes something")


def test_words():
    """Words and numbers, both ways, and which kinds each is of."""
    for given, told in (
        ("VERTEX|COPY_DST", ["40    usage of a buffer"]),
        ("VERTEX", ["32    usage of a buffer", "1     visibility"]),
        ("COPY_DST", ["8     usage of a buffer", "2     usage of a texture"]),
        ("GPUShaderStage.VERTEX | GPUShaderStage.FRAGMENT", ["3     visibility"]),
        ("render_attachment|TEXTURE_BINDING", ["20    usage of a texture"]),
        ("WRITE", ["2     mode of a mapAsync"]),
        (
            "40",
            [
                "usage of a buffer   COPY_DST|VERTEX", "usage of a texture  STORAGE_BINDING and 32, which has no word",
                "visibility          40, which has no word", "mode of a mapAsync  40 is none",
            ],
        ),
        (
            "3",
            [
                "usage of a buffer   MAP_READ|MAP_WRITE", "usage of a texture  COPY_SRC|COPY_DST", "visibility          VERTEX|FRAGMENT",
                "mode of a mapAsync  3 is none",
            ],
        ),
        ("0", ["usage of a buffer   no bit", "usage of a texture  no bit", "visibility          no bit", "mode of a mapAsync  0 is none"]),
    ):
        found = ends_so(0, "words", given)[0].splitlines()
        check(found == told, f"words {given}: {found}")
    for given, words in (
        ("VERTX", "the nearest is VERTEX"),
        ("FRAGMENT|INDEX", "no kind has all of these words"),
        ("READ|WRITE", "no kind"),
        ("", "is no word"),
        ("4294967296", "32 bits"),
    ):
        told, said = ends_so(2, "words", given)
        check(words in said and not told, f"words {given}: {said}")


def test_statuses(folder):
    """Pipes that are closed and a device that is full; and a script that is written to a name with spaces is played from there."""
    for words in ("script 8000", "words 40"):
        check(
            shell(f"{TOP}/wgsim {words} | true").returncode in (0, 5, 141),
            f"wgsim {words} into a closed pipe: the status is neither 0 nor 5",
        )
        check(shell(f"{TOP}/wgsim {words} > /dev/full").returncode == 5, f"wgsim {words} onto a full device: the status is not 5")
    check(shell(f"{TOP}/wgsim script 1 > '{folder}/a script'").returncode == 0, "script into a file: the status is not 0")
    told = ends_so(0, "run", str(folder / "a script"))[0]
    check(len(re.findall(r"^free b \d$", told, re.M)) == 8, "a script of one iteration gives back other than eight buffers")
