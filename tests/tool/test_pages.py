"""The picture of each example and case and of reports that are there, and what diff says of two reports."""

import html
import html.parser
import re
import subprocess
import sys

from test_checked import Docs

from common import LONGEST, TOP, answered, asked, check, wgsim
from wgsim.matching import checked as checks
from wgsim.pages import picture
from wgsim.program import program as programs
from wgsim.reading import places
from wgsim.reading import report as reports
from wgsim.reading import rules


class Tags(html.parser.HTMLParser):
    """Whether each tag of a page is closed, and which other pages it asks for."""

    EMPTY = {"meta", "br", "wbr", "input"}

    def __init__(self):
        super().__init__()
        self.open, self.asks, self.text = [], [], []

    def handle_starttag(self, tag, attributes):
        self.asks += [value for name, value in attributes if name in ("src", "href")]
        if tag not in self.EMPTY:
            self.open.append(tag)

    def handle_endtag(self, tag):
        check(self.open and self.open.pop() == tag, f"a page closes {tag}, which is not open")

    def handle_data(self, data):
        self.text.append(data)


def test_picture(path):
    """A picture is one whole page that asks for no other, and has each step, barrier and release."""
    data = path.read_bytes()
    page, status = picture.picture(places.Text(data, path.name), data, asked)
    tags = Tags()
    tags.feed(page)
    check(not tags.open and not tags.asks and "@import" not in page, f"{path.name}: the picture is no whole page of its own")
    if status == 0:
        counts = reports.Report(answered(path)[1].decode()).counts()
        text = " ".join(tags.text)
        check(len(re.findall(r"step \d+\b", text)) == counts["steps"], f"{path.name}: the picture has not each step")
        check(
            page.count("<span class='bar'>") - page.count("<span class='bar'>barrier: from") == counts["barriers"],
            f"{path.name}: the picture has not each barrier",
        )
        check(page.count(">given back<") >= counts["releases"], f"{path.name}: the picture has not each release")


def test_picture_words():
    """A fault has its cause, its rule's sentence, its call and the command that it is about; a store that discards has that word; a row has
    its mip level and layers."""
    def of(name):
        data = (TOP / f"examples/{name}.json").read_bytes()
        return html.unescape(picture.picture(places.Text(data, name), data, asked)[0])

    page = of("copy-within-one-buffer")
    for words in (
        "Fault at line 8: finish breaks rule 254",
        'source and target are both "b" (4:5). Copy to another buffer',
        rules.of(254)[0].asks,
        '{"do": "finish", "on": "e", "as": "c"}',
        "is number 1 of 1, at line 7",
        '{"do": "copyBufferToBuffer", "on": "e", "source": "b"',
    ):
        check(words in page, f"the picture of copy-within-one-buffer does not say `{words}`")
    boxes = re.findall(r"<div class='box (\w+)'>(.*?)</div>", of("discarded-and-loaded"))
    said = [(look, lines.split("<br>")[-1]) for look, lines in boxes]
    check(
        said == [("discard", "discard"), ("wipe", "write"), ("both", "read and write")],
        f"the picture of discarded-and-loaded has the boxes {said}",
    )
    page = of("layers-written-apart")
    names = set(re.findall(r"data-row='\d+' aria-label='(.*?)'", page))
    check(
        names and all(re.search(r" mip 0 layers? [\d\u2013, ]+$", name) for name in names if not name.startswith("b")),
        f"layers-written-apart: the rows are {names}",
    )


def test_picture_of_a_report(folder):
    """A picture of a report that is there is that of the play which brought it, but for the line that says whose it is."""
    nothing = {programs.NAMED: "/nowhere/wgsim"}
    for name in ("first-frame", "copy-within-one-buffer", "unknown-name"):
        script, report = TOP / f"examples/{name}.json", TOP / f"examples/{name}.report"
        ran, played = wgsim("picture", "--report", str(report), str(script), environment=nothing), wgsim("picture", str(script))
        own = ran.stdout.decode().replace(f"Of the report {report}:", "A:")
        other = re.sub(r"The answer of the program \S+, which WGSIM_PROGRAM names:", "A:", played.stdout.decode())
        check(ran.returncode == played.returncode and own == other, f"wgsim picture --report {name}.report: not the picture of {name}.json")
    (folder / "none").write_text("history\n0 0 what\nend\n")
    (folder / "other").write_text("bad script 10 7 0 0\n")
    for command in ("picture", "explain"):
        for report in ("none", "missing", "other"):
            ran = wgsim(command, "--report", str(folder / report), str(TOP / "examples/first-frame.json"))
            check(ran.returncode == 4 and not ran.stdout, f"wgsim {command} --report {report}: status {ran.returncode} and not 4")
        for words in (["--report"], ["--report", "-"], ["--report", "-", "-"]):
            check(wgsim(command, *words).returncode == 2, f"wgsim {command} {' '.join(words)}: the status is not 2")


def test_checking():
    """The log, the Python, the trace and the answers of docs/checking.md belong together."""
    text = (TOP / "docs/checking.md").read_text(encoding="utf-8")
    log, code, trace, answer = re.findall(r"^```(?:text|python)\n(.*?)^```$", text, re.M | re.S)
    ran = subprocess.run([sys.executable, "-c", code], input=log.encode(), capture_output=True, timeout=LONGEST)
    check(ran.stdout.decode() == trace, f"docs/checking.md: the log makes another trace: {ran.stdout}, {ran.stderr[-300:]}")
    told = checks.check(trace.encode(), "log.trace", Docs())
    check(told == (answer, 8), f"docs/checking.md: of its trace is said, with status {told[1]}:\n{told[0]}")
    lines = log.splitlines()
    mended = [*lines[:-1], re.search(r"with `(barrier .*?)` in front of the last line", text)[1], lines[-1]]
    ran = subprocess.run([sys.executable, "-c", code], input="\n".join([*mended, ""]).encode(), capture_output=True, timeout=LONGEST)
    proposed = re.search(r"^    (bar .*)", answer, re.M)[1]
    check(proposed.encode() in ran.stdout, f"docs/checking.md: the mended trace has not the barrier that is proposed, {proposed}")
    check(
        asked.program.check(ran.stdout) == (0, b"agrees\n"),
        f"docs/checking.md: {asked.program.check(ran.stdout)} is said of the mended trace {ran.stdout}",
    )


def renumbered(report):
    """A report with an entry more behind the first, so that all later entries and their promises have other numbers."""
    head, entries, rest = re.fullmatch(r"(history\n0 .*?\n)(.*?)(trace\n.*)", report, re.S).groups()
    moved = re.sub(r"^(\d+)|(?<=settle )(\d+)", lambda found: str(int(found[0]) + 1), entries, flags=re.M)
    return f"{head}1 0 pushErrorScope plain\n{moved}{rest}"


def test_diff(folder):
    """Two reports that are the same, and some that differ; the first difference comes first, by name."""
    script = TOP / "examples/clear-before-the-first-read.json"
    report = script.with_suffix(".report")
    other = folder / "other.report"
    other.write_text(report.read_text().replace("2 valid", "2 invalid").replace("acc read b 0 0 16", "acc read b 0 0 12"))
    for pair in ((report, report), (script, report), (script, script)):
        check(wgsim("diff", *map(str, pair)).returncode == 0, f"diff {pair[0].name} {pair[1].name}: not the same")
    for words in ([str(script), str(other)], ["--script", str(script), str(report), str(other)]):
        ran = wgsim("diff", *words)
        lines = ran.stdout.decode().splitlines()
        check(ran.returncode == 1 and "2 differences" in lines[2] and lines[3].startswith("entry 3"), f"diff {words}: {ran.stdout}")
        check(
            "    A: lane 0 createEncoder made e valid" in lines and "    B: read of b bytes 0 to 11" in lines,
            f"diff {words} does not go by names: {ran.stdout}",
        )
    lost = TOP / "examples/lost-device.report"
    other.write_text(renumbered(lost.read_text()))
    ran = wgsim("diff", str(lost), str(other))
    check(
        ran.returncode == 1 and b"1 difference; the first:\nentry 1 of B alone" in ran.stdout,
        f"diff with an entry more does not go by promises: {ran.stdout}",
    )
    ran = wgsim("diff", str(report), str(TOP / "examples/unknown-name.report"))
    check(ran.returncode == 1 and b"bad script 10" in ran.stdout, f"diff with a refusal: {ran.stdout}")
