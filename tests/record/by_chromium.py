"""The samples with their mistakes in Chromium: `tests/record/run --mistakes [PAGE ..]`. It takes a minute or two for each sample on a
machine that has nothing else to do, and so is no part of the test."""

import json
import pathlib
import re

SAMPLES = pathlib.Path(__file__).resolve().parent / "samples"
WELL = ("agrees", "differs as known")


def test_mistakes(folder, check, wgsim, verdicts, pages):
    """Of each mistake core and browser tell the same; the core's first fault has the rule of the table, and without a mistake there is
    none."""
    table = json.loads((SAMPLES / "mistakes.json").read_text(encoding="utf-8"))
    for name in pages or sorted(path.stem for path in SAMPLES.glob("*.html")):
        sample = (SAMPLES / f"{name}.html").read_text(encoding="utf-8")
        rows = [None, *(row for row in table if row["page"] == name)]
        for number, row in enumerate(rows):
            page, out = folder / f"{name}-{number}.html", folder / f"{name}-{number}"
            page.write_text(sample.replace(row["was"], row["is"]) if row else sample, encoding="utf-8")
            wgsim("record", "--seconds", 300, "--out", out, page)
            one = next(iter(verdicts(out, 0).values()))
            told = one["recorded"]["told"]
            rules = [int(found[1]) for found in (re.search(r"rule (\d+)", each["core"]) for each in told) if found]
            print(f"{page.name}: {one['result']}, the rules {rules}", flush=True)
            check(one["result"] in WELL, f"{page.name}: {one['result']}: {told[:1]}")
            check(rules[:1] == ([row["rule"]] if row else []), f"{page.name}: {rules[:1]}, and {row} is wanted")
