"""What the tests of the tool share: the scripts that they go through, the tool as a command, and the program that it asks."""

import os
import pathlib
import subprocess

TOP = pathlib.Path(__file__).resolve().parent.parent.parent
EXAMPLES = sorted((TOP / "examples").glob("*.json"))
CASES = sorted((TOP / "tests/cases").glob("*/*.json"))
# What a run of the tool takes at most, in seconds: one that has not ended by then hangs, be the machine as busy as it may.
LONGEST = 600
findings = []


class Asked:
    """The program that the tool asks in these tests, once it is known."""

    plays = True

    def __init__(self):
        self.program = None
        self.said = "the program of the tests"

    def ask(self, data):
        return self.program.ask(data)


asked = Asked()


def check(holds, what):
    if not holds:
        findings.append(what)


def wgsim(*words, data=b"", top=TOP, **more):
    """Runs the tool; standard input is `data`, unless another is given."""
    environment = {**os.environ, **more.pop("environment", {})}
    environment = {name: value for name, value in environment.items() if value is not None}
    how = {"stdin": more.pop("stdin")} if "stdin" in more else {"input": data}
    ran = subprocess.run([top / "wgsim", *words], capture_output=True, env=environment, cwd=top, timeout=LONGEST, **how, **more)
    check(b"Traceback" not in ran.stderr, f"wgsim {' '.join(words)}: a traceback:\n{ran.stderr.decode('utf-8', 'replace')}")
    return ran


def ends_so(status, *words, **more):
    """Runs the tool, which has to end with a status, and answers with what it wrote and said."""
    ran = wgsim(*words, **more)
    check(
        ran.returncode == status,
        f"wgsim {' '.join(words)[:200]}: status {ran.returncode} and not {status}: {ran.stderr[-400:].decode('utf-8', 'replace')}",
    )
    return ran.stdout.decode("utf-8", "replace"), ran.stderr.decode("utf-8", "replace")


def shell(line):
    """Runs a line of the shell, in which a pipe fails where a part of it does, and looks that no traceback comes of it."""
    ran = subprocess.run(["bash", "-c", "set -o pipefail; " + line], capture_output=True, timeout=LONGEST)
    check(b"Traceback" not in ran.stderr, f"{line}: a traceback:\n{ran.stderr.decode('utf-8', 'replace')}")
    return ran


def wanted(script):
    """The reports that lie beside a script, of which each run brings one, and the status that belongs to them."""
    reports_of = [path.read_bytes() for path in (script.with_suffix(".report"), *sorted(script.parent.glob(script.stem + ".alt*.report")))]
    return (3 if reports_of[0].startswith(b"bad script") else 0), reports_of


def answered(script):
    """The status, and the report that the program gave when it was asked first: explain and picture are given the same one."""
    status, reports_of = wanted(script)
    report = asked.ask(script.read_bytes())[1]
    check(report in reports_of, f"{script.name}: the program writes another report")
    return status, report
