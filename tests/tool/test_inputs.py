"""The words of the command line, and what they are given: files, folders, pipes, and what is none of these."""

import os
import subprocess
import sys

from common import EXAMPLES, LONGEST, TOP, check, wanted, wgsim
from wgsim.program import program as programs


def test_words():
    """Wrong words have the usage on standard error and status 2, where nothing is there to build with."""
    nothing = {"PATH": "/nowhere", programs.NAMED: None}
    python = [sys.executable, TOP / "wgsim"]
    for words in (
        [],
        ["play"],
        ["run", "a", "b"],
        ["--quick"],
        ["run", "--quick"],
        ["rules", "x"],
        ["rules", "1", "2"],
        ["diff"],
        ["diff", "a"],
        ["diff", "a", "b", "c"],
        ["diff", "-", "-"],
        ["diff", "a", "b", "--script"],
        ["--help", "run"],
        ["--unproved"],
        ["--unproved", "--help"],
        ["run", "--callers"],
        ["run", "--callers", "0,x"],
        ["run", "--callers", "0;1"],
        ["explain", "--callers", "0"],
        ["verify"],
        ["verify", "a"],
        ["verify", "a", "b", "c"],
        ["verify", "-", "-"],
        ["outcomes", "a", "b"],
        ["judge"],
        ["judge", "a", "b"],
        ["judge", "--quick", "a"],
        ["script"],
        ["words"],
        ["words", "a", "b"],
        ["prove", "a"],
        ["explain", "--report"],
        ["run", "--json"],
        ["check", "a", "b"],
        ["check", "--quick", "a"],
        ["check", "--report", "a"],
        ["picture", "--script", "a"],
        ["picture", "--check", "--report", "a"],
        ["explain", "--report", "-", "-"],
        ["explain", "--report", "-"],
        ["--proved", "explain", "--report", "a", "b"],
    ):
        ran = subprocess.run(
            [*python, *words], capture_output=True, env={**os.environ, **{k: v for k, v in nothing.items() if v}}, timeout=LONGEST
        )
        said = " ".join(words)
        check(ran.returncode == 2, f"wgsim {said}: status {ran.returncode} and not 2")
        check(b"usage: wgsim" in ran.stderr and not ran.stdout, f"wgsim {said}: the usage is to be on standard error alone")
    check(wgsim("--help").stdout.startswith(b"usage: wgsim"), "wgsim --help: no usage on standard output")
    check(wgsim("explain", "--help").stdout.startswith(b"usage: wgsim"), "wgsim explain --help: no usage on standard output")
    told = wgsim("explain", "--quick").stderr.decode()
    check(
        told.startswith("wgsim: explain takes no --quick\nusage: wgsim explain ") and len(told.splitlines()) < 8,
        f"wgsim explain --quick: the line that matters is hidden:\n{told}",
    )
    check(b"sources " in wgsim("--version").stdout, "wgsim --version: no sources")
    check(wgsim("rules", "99999").returncode == 2, "wgsim rules 99999: the status is not 2")


def test_generated():
    """The program's own line, status and refusals."""
    for words, line in (
        (("1",), b"entries 21 ops 2 faults 0 frees 8 bars 2 clears 1\n"),
        (("2", "3"), b"entries 41 ops 12 faults 0 frees 8\n"),
    ):
        ran = wgsim("gen", *words)
        check(ran.returncode == 0 and ran.stdout == line, f"wgsim gen {' '.join(words)}: {ran.stdout}")
    for words in ((), ("0",), ("8001",), ("200", "41"), ("1", "1", "1")):
        ran = wgsim("gen", *words)
        check(ran.returncode == 2 and not ran.stdout, f"wgsim gen {' '.join(words)}: status {ran.returncode}")


def test_run():
    """A run passes bytes and status through, from a file, from standard input and from `-`."""
    for script in EXAMPLES:
        status, reports_of = wanted(script)
        for ran in (wgsim("run", str(script)), wgsim("run", data=script.read_bytes()), wgsim("run", "-", data=script.read_bytes())):
            check(
                ran.returncode == status and ran.stdout in reports_of,
                f"wgsim run {script.name}: not its report, or status {ran.returncode}",
            )


def test_check(folder):
    """A check begins with the program's line and has its status, of each example's report and of traces that somebody wrote."""
    for report in [path for script in EXAMPLES for path in sorted(script.parent.glob(script.stem + "*.report"))]:
        ran = wgsim("check", str(report))
        is_refused = report.read_bytes().startswith(b"bad script")
        check(
            (ran.returncode, ran.stdout.partition(b": ")[0]) == ((9, b"bad trace 1 0") if is_refused else (0, b"agrees")),
            f"wgsim check {report.name}: status {ran.returncode}, {ran.stdout}",
        )
    trace = (
        b"trace\nstep 0 op 1 writeBuffer\nacc write b 0 0 8\nbar b 0 copy-dst copy-dst\nstep 1 op 2 writeBuffer\nacc write b 0 4 12\nend\n"
    )
    without = trace.replace(b"bar b 0 copy-dst copy-dst\n", b"")
    for text, line, status in (
        (trace, b"agrees", 0),
        (without, b"differs end 0 b 0 4 5", 8),
        (trace.replace(b"step 1", b"step 2"), b"bad trace 3 5", 9),
        (b" " * 67108865, b"", 7),
    ):
        (folder / "text").write_bytes(text)
        for ran in (wgsim("check", str(folder / "text")), wgsim("check", data=text), wgsim("check", "-", data=text)):
            check(
                ran.returncode == status and ran.stdout.partition(b": ")[0] == line,
                f"wgsim check: status {ran.returncode} and not {status}: {ran.stdout}",
            )
    check(
        wgsim("check", str(folder / "missing")).returncode == 4 and wgsim("check", str(folder)).returncode == 4,
        "wgsim check of no file: the status is not 4",
    )


def test_inputs(folder):
    """Bad bytes, an empty file, a missing file, a folder, a script that is too long, and pipes that are closed."""
    (folder / "empty").write_bytes(b"")
    (folder / "bytes").write_bytes(b'{"budget":0,\xff')
    (folder / "long").write_bytes(b" " * 4194305)
    for command in ("run", "explain", "picture"):
        for name, status in (("empty", 3), ("bytes", 3), ("long", 7), ("missing", 4), (".", 4)):
            ran = wgsim(command, str(folder / name))
            check(ran.returncode == status, f"wgsim {command} on {name}: status {ran.returncode} and not {status}")
        for stdin, stdout, how in ((None, os.devnull, "no standard input"), (os.devnull, "/dev/full", "a full device")):
            redirect = f"exec {TOP}/wgsim {command} >{stdout} {'<&-' if stdin is None else '<' + stdin}"
            ran = subprocess.run(["bash", "-c", redirect], capture_output=True, timeout=LONGEST)
            check(
                ran.returncode in (3, 4, 5) and b"Traceback" not in ran.stderr,
                f"wgsim {command} with {how}: status {ran.returncode}, {ran.stderr[-300:]}",
            )
        piped = f"set -o pipefail; {TOP}/wgsim {command} {TOP}/examples/first-frame.json | true"
        ran = subprocess.run(["bash", "-c", piped], capture_output=True, timeout=LONGEST)
        check(
            ran.returncode in (0, 5, 141) and not ran.stderr,
            f"wgsim {command} into a closed pipe: status {ran.returncode}, {ran.stderr[-300:]}",
        )
    told = wgsim("explain", str(folder / "bytes")).stdout.decode()
    check("bytes:1:13" in told and "0xff" in told, f"wgsim explain on bad UTF-8 does not tell the byte:\n{told}")
    for words in (["diff", str(folder / "missing"), str(folder / "empty")], ["diff", str(folder / "empty"), str(folder / "empty")]):
        check(wgsim(*words).returncode == 4, f"wgsim {words[0]} on what is no report: the status is not 4")
