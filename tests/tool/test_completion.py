"""The commands and their words, which are read off the commands' own files, in the help and in what shells are told to complete."""

import shutil
import subprocess

from common import TOP, check, ends_so
from wgsim import commands, completion, words


def known():
    """The commands as the completion has them: the tool without one, and each."""
    found = commands.found()
    parser, each = words.parser_of(found)
    return completion.commands_of(parser, each, {name: module.HELP for name, module in found.items()})


def test_commands():
    """Each file of the folder is a command, which stands in the help, has a help of its own, and its section in docs/tool.md."""
    told, document = ends_so(0, "--help")[0], (TOP / "docs/tool.md").read_text(encoding="utf-8")
    names = [path.stem for path in sorted((TOP / "tools/wgsim/commands").glob("*.py")) if path.stem != "__init__"]
    check(names == list(commands.found()) and len(names) > 14, f"the commands are {list(commands.found())}, and the files {names}")
    for command in known()[1:]:
        check(f"    {command.name}" in told, f"wgsim --help: {command.name} is not in it")
        check(f"## `wgsim {command.name}" in document, f"docs/tool.md: there is no section on {command.name}")
        own = ends_so(0, command.name, "--help")[0]
        for name in completion.names_in(command):
            check(name in own, f"wgsim {command.name} --help: {name} is not in it")


def completed(text, *line):
    """What bash completes behind a line of words, of which the last may be begun."""
    quoted = " ".join(f"'{word}'" for word in line)
    asked = f'COMP_WORDS=({quoted}); COMP_CWORD={len(line) - 1}; _wgsim; printf "%s\\n" "${{COMPREPLY[@]}}"'
    ran = subprocess.run(["bash", "-c", f"{text}\n{asked}"], capture_output=True, text=True, cwd=TOP, check=False)
    check(ran.returncode == 0 and not ran.stderr, f"bash completes {line}: {ran.stderr}")
    return ran.stdout.split()


def test_bash():
    """What bash completes: commands, the options of a command, the words that belong to one, files and folders."""
    text, whole = ends_so(0, "completion", "bash")[0], known()
    check(completed(text, "wgsim", "")[: len(whole) - 1] == [command.name for command in whole[1:]], "bash does not complete the commands")
    check(completed(text, "wgsim", "ex") == ["explain"], "bash does not complete a command")
    for command in whole[1:]:
        found = completed(text, "wgsim", command.name, "--")
        check(found == completion.names_in(command), f"bash completes {found} of {command.name}")
    check(completed(text, "wgsim", "explain", "--report", "READ") == ["README.md"], "bash does not complete a report")
    check(completed(text, "wgsim", "--unproved", "explain", "READ") == ["README.md"], "bash does not complete a script")
    check(completed(text, "wgsim", "judge", "exa") == ["examples"], "bash does not complete a folder")
    check(completed(text, "wgsim", "completion", "z") == ["zsh"], "bash does not complete a shell")


def test_other_shells():
    """What zsh and fish are told has each command with its options, and is read by them where they are installed."""
    for shell, how in (("zsh", ["-n"]), ("fish", ["--no-execute"])):
        text = ends_so(0, "completion", shell)[0]
        for command in known()[1:]:
            check(command.name in text, f"wgsim completion {shell}: {command.name} is not in it")
            for name in completion.names_in(command):
                check((name if shell == "zsh" else f"-l {name[2:]} ") in text, f"wgsim completion {shell}: {name} is not in it")
        if shutil.which(shell):
            ran = subprocess.run([shell, *how], input=text, capture_output=True, text=True, check=False)
            check(ran.returncode == 0 and not ran.stderr, f"{shell} cannot read what it is told: {ran.stderr}")
    ends_so(2, "completion", "csh")
