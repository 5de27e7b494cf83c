"""Tests of a release: `tools/release` writes one, and what is unpacked of it is used in a bare folder, with no `rt` on the PATH.

usage: tests/release/run [--program FILE] [--archive FILE] [--libc FILE]

Every command of the release's README.md is run in its order, as it stands there: take it, install it, build the examples by pkg-config,
CMake and cargo, take it away. What asks for a tool that is not installed is left out, and that is said. The program and the archive are
those of these sources, or those that are named. Where there is no archive, or no commit, nothing is tested, and that is said too. Prints a
line for each finding, and fails if there is one.
"""

import argparse
import json
import os
import pathlib
import re
import shutil
import subprocess
import sys
import tarfile
import tempfile

from wgsim import TOP
from wgsim.program import archive, building, crates, release

BLOCK = re.compile(r"^```sh\n(.*?)^```$", re.M | re.S)
# What may lack on a machine that a release is good for, with where Debian has it.
OPTIONAL = {"cc": "gcc", "c++": "g++", "pkg-config": "pkg-config", "cmake": "cmake", "cargo": "cargo"}
PAGE = TOP / "tests/record/pages/scopes.html"
EXPLAINED = "examples/submit-of-a-destroyed-buffer.json"
SECONDS = 600
# Where cargo and rustup keep what they have, which goes by HOME if it is not said.
KEPT = {"CARGO_HOME": ".cargo", "RUSTUP_HOME": ".rustup"}
findings = []


def check(is_so, text):
    if not is_so:
        findings.append(text)


def bare_path():
    """The folders of the PATH in which there is no `rt`."""
    folders = os.environ["PATH"].split(os.pathsep)
    return os.pathsep.join(folder for folder in dict.fromkeys(folders) if not os.path.exists(os.path.join(folder, "rt")))


def bare(home):
    """What a user has in the environment who has never seen the repository."""
    kept = {name: os.environ.get(name, os.path.join(os.environ.get("HOME", "/"), folder)) for name, folder in KEPT.items()}
    words = {name: os.environ[name] for name in ("LANG", "LC_ALL", "TMPDIR") if name in os.environ}
    return {**words, **kept, "PATH": bare_path(), "HOME": str(home)}


def run(words, **how):
    """The status of a command, and what it wrote, both streams in one where it is not told otherwise."""
    how = {"stdin": subprocess.DEVNULL, "stdout": subprocess.PIPE, "stderr": subprocess.STDOUT, "timeout": SECONDS, **how}
    ran = subprocess.run([str(word) for word in words], **how)
    return ran.returncode, ran.stdout.decode("utf-8", "replace")


def written(words, into):
    """Writes a release into a folder. Returns it, or None where that fails."""
    status, said = run([TOP / "tools/release", "--into", into, *words])
    found = sorted(pathlib.Path(into).glob("*.tar.gz"))
    check(status == 0 and len(found) == 1, f"tools/release: status {status}\n{said}")
    return found[0] if status == 0 and len(found) == 1 else None


def unpacked(packed, folder):
    """The top of a release that is unpacked into a folder."""
    with tarfile.open(packed) as tar:
        check(tar.getnames() == sorted(tar.getnames()), "the files of a release are not in order")
        check({(each.uid, each.gid, each.uname, each.gname) for each in tar} == {(0, 0, "", "")}, "a file of a release has an owner")
        check(len({each.mtime for each in tar}) == 1, "the files of a release have several times")
    shutil.unpack_archive(packed, folder)
    return folder / packed.name[: -len(".tar.gz")]


def test_manifest(top):
    """The manifest tells the version, the commit, the toolchain, the crates, and each file with its checksum."""
    told = json.loads((top / release.NAME).read_text(encoding="utf-8"))
    version = (TOP / "VERSION").read_text(encoding="utf-8").strip()
    check(told["version"] == version, f"the manifest tells the version {told['version']}, and VERSION has {version}")
    check(re.fullmatch(r"[0-9a-f]{40}", told["commit"]), f"the manifest tells the commit {told['commit']}")
    check(re.search(r"\blogic [0-9a-f]+", told["toolchain"]), f"the manifest tells the toolchain {told['toolchain']}")
    for what, crate in (("program", "wgsim"), ("archive", "wg_c")):
        check(told[what]["proved_crates"] == crates.needed(crate), f"the manifest tells other crates of the {what}")
    own = {release.NAME, "SHA256SUMS"}
    files = {path.relative_to(top).as_posix() for path in top.rglob("*") if path.is_file() and not path.is_symlink()}
    check(set(told["files"]) == files - own, f"the manifest tells other files than there are: {set(told['files']) ^ (files - own)}")
    for name in files & set(told["files"]):
        check(told["files"][name] == release.sum_of(top / name), f"the manifest tells another checksum of {name}")


def test_tool(top, environment):
    """The tool answers by the program of the release, and says of what it is."""
    version = (TOP / "VERSION").read_text(encoding="utf-8").strip()
    status, said = run([top / "wgsim", "--version"], env=environment)
    check(status == 0 and f"Wethlorn {version}, a release" in said, f"wgsim --version: status {status}\n{said}")
    status, said = run([top / "wgsim", "explain", EXPLAINED], cwd=top, env=environment)
    check(status == 0 and "breaks rule 192" in said, f"wgsim explain: status {status}\n{said}")
    report = top / "examples/first-frame.report"
    status, said = run([top / "wgsim", "run", report.with_suffix(".json")], env=environment)
    check(status == 0 and said == report.read_text(encoding="utf-8"), f"wgsim run: status {status}, and another report")
    for words in (["prove"], ["--unproved", "run", EXPLAINED]):
        status, said = run([top / "wgsim", *words], cwd=top, env=environment)
        check(status == 11 and "a release has" in said, f"wgsim {' '.join(words)}: status {status}\n{said}")


def test_other_program(top, environment):
    """The tool refuses a program that is not the one of the manifest."""
    program = top / release.FILE
    whole = program.read_bytes()
    program.write_bytes(whole + b"\n")
    status, said = run([top / "wgsim", "run", EXPLAINED], cwd=top, env=environment)
    check(status == 11 and "take the release anew" in said, f"wgsim with another program: status {status}\n{said}")
    program.write_bytes(whole)


def test_record(top, environment, folder):
    """The tool records a page, where Chromium is installed."""
    if not any(shutil.which(name, path=environment["PATH"]) for name in ("chromium", "chromium-browser", "google-chrome")):
        print("notice: Chromium is not installed, so no page is recorded (Debian: apt-get install chromium)")
        return
    status, said = run([top / "wgsim", "record", PAGE, "--out", folder], env=environment)
    scripts = sorted(pathlib.Path(folder).glob("*.json"))
    check(status == 0 and scripts, f"wgsim record: status {status}\n{said}")


def commands(readme, path):
    """The commands of the README, in order, and a notice of those for which a tool lacks."""
    found = []
    for block in BLOCK.findall(readme):
        lacking = [name for name in OPTIONAL if re.search(rf"(?<![\w/.-]){re.escape(name)} ", block) and not shutil.which(name, path=path)]
        if lacking:
            lacks = lacking[0]
            print(f"notice: {lacks} is not installed, so what is done by it is left out (Debian: apt-get install {OPTIONAL[lacks]})")
        else:
            found += block.splitlines()
    return found


def test_readme(packed, top, environment, folder):
    """Every command of the README, in one shell, where what was sent lies and nothing else."""
    for sent in (packed, packed.with_name(f"{packed.name}.sha256")):
        shutil.copy(sent, folder)
    words = commands((top / "README.md").read_text(encoding="utf-8"), environment["PATH"])
    check(len(words) > 10, "the README of a release has few commands")
    script = "set -eu\n" + "".join(f"printf '$ %s\\n' {quoted(each)}\n{each}\n" for each in words)
    prefix = folder / ".local"
    (prefix / "lib").mkdir(parents=True)
    (prefix / "lib/other").write_text("not of a release\n", encoding="utf-8")
    status, said = run(["sh", "-c", script], cwd=folder, env=environment)
    check(status == 0, f"the commands of the README of a release: status {status}\n{said[-4000:]}")
    left = [path.relative_to(prefix).as_posix() for path in prefix.rglob("*")]
    check(status != 0 or left == ["lib", "lib/other"], f"`./install --remove` leaves {left} of lib/other alone")
    print(f"{len(words)} commands of the README")


def quoted(word):
    return "'" + word.replace("'", "'\\''") + "'"


def test_release(words):
    """Writes a release twice, and uses it."""
    with tempfile.TemporaryDirectory() as room:
        packed, again = (written(words, f"{room}/{name}") for name in ("once", "twice"))
        if packed is None or again is None:
            return
        check(packed.read_bytes() == again.read_bytes(), "two releases of the same sources are not the same bytes")
        folders = {name: pathlib.Path(room) / name for name in ("unpacked", "home", "recorded")}
        for folder in folders.values():
            folder.mkdir()
        environment = bare(folders["home"])
        check(shutil.which("rt", path=environment["PATH"]) is None, "`rt` is on the PATH that is to have none")
        top = unpacked(packed, folders["unpacked"])
        test_manifest(top)
        test_tool(top, environment)
        test_other_program(top, environment)
        test_record(top, environment, folders["recorded"])
        test_readme(packed, top, environment, folders["home"])


def linked(words):
    """The archive and the heap of the release, or why there are none, or no commit of which one could be."""
    status, said = run(["git", "rev-parse", "HEAD"], cwd=TOP) if shutil.which("git") else (1, "git is not installed")
    if status:
        return None, f"a release is of a commit, and there is none: {said}"
    found, why = (words.archive, None) if words.archive else archive.found()
    return ([found, words.libc or archive.libc()], None) if found else (None, why)


def main():
    parser = argparse.ArgumentParser(prog="tests/release/run", description=__doc__.splitlines()[0])
    parser.add_argument("--program", default=building.PROGRAM)
    parser.add_argument("--archive")
    parser.add_argument("--libc")
    words = parser.parse_args()
    found, why = linked(words)
    if found is None:
        print(f"notice: no release is tested: {why}")
        return 0
    check(os.path.exists(words.program), f"{words.program} is not there: `./wgsim prove` or `rt ci` builds it")
    if not findings:
        given = [pathlib.Path(path).resolve() for path in (words.program, *found)]
        test_release([f"--{name}={path}" for name, path in zip(("program", "archive", "libc"), given)])
    for finding in findings:
        print(finding)
    print(f"tests of a release: {len(findings)} findings")
    return 1 if findings else 0


sys.exit(main())
