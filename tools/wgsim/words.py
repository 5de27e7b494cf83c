"""The words of the command line, read by argparse. Which commands there are is read off the folder commands/."""

from __future__ import annotations

import argparse
import os
import pathlib
import signal
import sys
from types import ModuleType
from typing import Any, Callable, NoReturn

from wgsim import TOP, commands, exit_status
from wgsim.inputs import STANDARD, write
from wgsim.program import building, release
from wgsim.program.program import NAMED

NAME = "wgsim"
ABOUT = """\
A small tool around the proved program: it plays scripts, and explains, draws and compares what the program says.

FILE is a script; with no FILE, or -, it is standard input. The proved program answers where `wgsim prove` has built it from
the sources as they are; else the program is compiled without its proofs, in about a minute, once, and a line on standard
error says so. --proved refuses all answers but those of the proved program, and --unproved asks for the other one. Both need
the toolchain `rt`. A release has the program beside it, and needs none.
"""
STATUSES = """\
`wgsim COMMAND --help` has the words of a command.

exit status: 0 the report was written, the two reports are the same, the report is one of the script, all is as expected
             1 diff, verify, judge, hunt: it is not so; run --callers: the callers are no order of the script
             2 the words are not as above      3 the script is refused
             4 an input could not be read      5 the output could not be written
             6 there was no memory             7 the script has more than 4,194,304 bytes, or the trace more than 67,108,864
             8 check: the trace differs        9 check: the text is no trace
            10 outcomes: there are too many orders of turns
            11 the program could not be built, or is not proved    12 the program, or an unproved run, had no answer

docs/tool.md has an example of each command, docs/script.md the form of scripts, docs/report.md that of reports,
and docs/rules.md every rule. examples/README.md says what each example shows.
"""


class Wrong(Exception):
    """The words are not as the usage has them. `usage` is what helps."""

    def __init__(self, why: str, usage: str) -> None:
        super().__init__(why)
        self.usage = usage


class Parser(argparse.ArgumentParser):
    """A reader of words that ends the tool with its own status, and in its own way."""

    def error(self, message: str) -> NoReturn:
        raise Wrong(message, self.format_usage())


def which_program() -> argparse.ArgumentParser:
    """The words for which program answers, which may stand before the command and behind it."""
    parser = Parser(add_help=False, argument_default=argparse.SUPPRESS)
    which = parser.add_mutually_exclusive_group()
    which.add_argument("--proved", action="store_true", dest="is_proved", help="takes no answer but the proved program's")
    which.add_argument("--unproved", action="store_true", dest="is_unproved", help="asks the program that is compiled without its proofs")
    return parser


def parser_of(found: dict[str, ModuleType]) -> tuple[Parser, dict[str, Parser]]:
    """The reader of all words, and that of each command by its name."""
    def shared() -> dict[str, Any]:
        # The parent is another one for each, since a parser changes what it takes of its parent.
        return {"formatter_class": argparse.RawDescriptionHelpFormatter, "allow_abbrev": False, "parents": [which_program()]}

    parser = Parser(prog=NAME, description=ABOUT, epilog=STATUSES, add_help=False, **shared())
    parser.set_defaults(is_proved=False, is_unproved=False, command=None)
    parser.add_argument("--help", action="store_true", help="this text")
    parser.add_argument("--version", action="store_true", help="which version this is, and which programs there are of its sources")
    several, each = parser.add_subparsers(title="commands", metavar="COMMAND", dest="command", parser_class=Parser), {}
    for name, module in found.items():
        each[name] = several.add_parser(name, help=module.HELP, description=module.__doc__, **shared())
        module.add_words(each[name])
    return parser, each


def read(parser: Parser, each: dict[str, Parser], found: dict[str, ModuleType], given: list[str]) -> argparse.Namespace:
    """What was asked for."""
    words, more = parser.parse_known_args(given)
    own = each.get(words.command, parser)

    def wrong(why: str) -> NoReturn:
        raise Wrong(why, own.format_usage())

    for word in more:
        wrong(
            f"{words.command or NAME} takes no {word}" if word.startswith("-") else f"{words.command or NAME} takes no further word {word}"
        )
    if words.help or words.version:
        if len(given) > 1:
            wrong(f"{'--help' if words.help else '--version'} stands alone")
        return words
    if words.command is None:
        wrong("a command is needed")
    test(words, found[words.command], wrong)
    return words


def test(words: argparse.Namespace, module: ModuleType, wrong: Callable[[str], None]) -> None:
    """What is asked of the words together, of any command and by the command itself."""
    if words.is_proved and words.is_unproved:
        wrong("--proved and --unproved ask for two programs")
    if words.is_proved and not (module.BY_PROGRAM and all(getattr(words, name, None) is None for name in ("callers", "report"))):
        wrong("--proved asks for the proved program, which does not answer this")
    inputs = [getattr(words, name, None) for name in ("file", "other", "script", "report")]
    if inputs.count(STANDARD) > 1:
        wrong("standard input can be one file alone")
    if hasattr(module, "test"):
        module.test(words, wrong)


def version() -> str:
    """Which version and sources this is, which programs there are of them, and by which toolchain one would be proved."""
    from wgsim.program import unproved

    def of(is_current: bool, program: pathlib.Path, done: str) -> str:
        return f"{done} from these sources" if is_current else f"{done} from other sources" if program.exists() else f"not {done}"

    if release.is_one():
        return "".join(line + "\n" for line in release.version())
    by = "the proved program" if building.is_built() else "the program without proofs; `./wgsim prove` proves and builds it"
    lines = [
        f"wgsim of Wethlorn {(TOP / 'VERSION').read_text(encoding='utf-8').strip()}, sources {building.sum_of_sources()[:12]}",
        f"the proved program is {of(building.is_built(), building.PROGRAM, 'built')}",
        f"the program without proofs is {of(unproved.is_kept(), unproved.PROGRAM, 'compiled')}",
        f"answers are from {by}",
        f"the toolchain `rt` is {building.toolchain() or 'not on the PATH'}",
    ]
    return "".join(line + "\n" for line in lines)


def act(given: list[str]) -> int:
    """Reads the words, and does what they ask."""
    found = commands.found()
    parser, each = parser_of(found)
    words = read(parser, each, found, given)
    for number in (signal.SIGTERM, signal.SIGHUP):
        signal.signal(number, lambda number, _: sys.exit(128 + number))
    if words.help or words.version:
        write(parser.format_help() if words.help else version())
        return exit_status.SAME
    if words.is_proved and (NAMED in os.environ or not building.is_built()):
        why = "the proved program is not built from these sources, and --proved takes no other: `./wgsim prove` builds it"
        if release.is_one():
            why = f"--proved takes no other than the proved program, and {release.said()} is here"
        raise exit_status.End(exit_status.NOT_BUILT, why)
    return found[words.command].act(words)


def main(given: list[str]) -> int:
    """Does what the words ask, and returns the exit status."""
    try:
        return act(given)
    except Wrong as wrong:
        sys.stderr.write(f"wgsim: {wrong}\n{wrong.usage}`wgsim --help` has all words\n")
        return exit_status.WORDS
    except exit_status.End as end:
        print(f"wgsim: {end.why}", file=sys.stderr)
        return end.status
    except KeyboardInterrupt:
        return 130
    except BrokenPipeError:
        # Whoever reads has gone. Standard output is turned away, so that Python finds nothing to complain of at its end.
        os.dup2(os.open(os.devnull, os.O_WRONLY), 1)
        return exit_status.UNWRITTEN
    except OSError as error:
        print(f"wgsim: {error.strerror}", file=sys.stderr)
        return exit_status.UNWRITTEN
