"""What a shell is told to complete the words of the tool, made of the same parsers that read them."""

import argparse
from typing import Dict, List, Mapping, NamedTuple, Sequence

NAME = "wgsim"
# What stands for a word in the help, where that is a file or a folder.
FILES, FOLDERS = {"A", "B", "FILE", "PAGE", "PATH", "REPORT", "SCRIPT", "TRACE"}, {"FOLDER"}


class Word(NamedTuple):
    """An option, or a word that stands by its place, which has no names: whether one belongs to it, and what that is."""

    names: Sequence[str]
    said: str
    takes: bool
    what: str
    choices: Sequence[str]


class Command(NamedTuple):
    name: str
    said: str
    options: List[Word]
    places: List[Word]


def word_of(action: argparse.Action) -> Word:
    metavar = action.metavar if isinstance(action.metavar, str) else ""
    what = "files" if metavar in FILES else "folders" if metavar in FOLDERS else "none"
    choices = [str(choice) for choice in action.choices or ()]
    return Word(action.option_strings, (action.help or "").split(":")[0], action.nargs != 0, what, choices)


def command_of(name: str, said: str, parser: argparse.ArgumentParser) -> Command:
    words = [word_of(action) for action in parser._actions if not isinstance(action, argparse._SubParsersAction)]
    return Command(name, said, [word for word in words if word.names], [word for word in words if not word.names])


def commands_of(parser: argparse.ArgumentParser, each: Mapping[str, argparse.ArgumentParser], said: Dict[str, str]) -> List[Command]:
    """The tool without a command, which has no name, and each command."""
    return [command_of("", "", parser), *(command_of(name, said[name], one) for name, one in each.items())]


def names_in(command: Command) -> List[str]:
    return [name for word in command.options for name in word.names if name.startswith("--")]


def quoted(text: str) -> str:
    """A text as a word of a shell."""
    return "'" + text.replace("'", "'\\''") + "'"


def by_bash(word: Word) -> str:
    """What bash completes in the place of a word."""
    if word.choices:
        return f'COMPREPLY=($(compgen -W {quoted(" ".join(word.choices))} -- "$word"))'
    return {"files": 'COMPREPLY=($(compgen -f -- "$word"))', "folders": 'COMPREPLY=($(compgen -d -- "$word"))'}.get(word.what, ":")


def bash(commands: List[Command]) -> str:
    top, *others = commands
    lines = ["# Completes the words of wgsim in bash: source <(./wgsim completion bash)", "_wgsim() {"]
    lines += ['    local word=${COMP_WORDS[COMP_CWORD]} before=${COMP_WORDS[COMP_CWORD - 1]} command= each', "    COMPREPLY=()"]
    lines += ['    for each in "${COMP_WORDS[@]:1:COMP_CWORD-1}"; do', "        case $each in -*) ;; *) command=$each; break ;; esac"]
    lines += ["    done"]
    lines += ['    case "$command $before" in']
    taking = [(command, word, name) for command in others for word in command.options if word.takes for name in word.names]
    lines += [f"        {quoted(f'{command.name} {name}')}) {by_bash(word)}; return ;;" for command, word, name in taking]
    lines += ["    esac", '    case "$command" in']
    words = " ".join([*(command.name for command in others), *names_in(top)])
    lines += [f"""        '') COMPREPLY=($(compgen -W {quoted(words)} -- "$word")) ;;"""]
    for command in others:
        options = f'COMPREPLY=($(compgen -W {quoted(" ".join(names_in(command)))} -- "$word"))'
        place = by_bash(command.places[0]) if command.places else ":"
        lines += [f"        {command.name}) if [[ $word == -* ]]; then {options}; else {place}; fi ;;"]
    return "\n".join([*lines, "    esac", "}", "complete -o filenames -F _wgsim wgsim ./wgsim", ""])


def by_zsh(word: Word) -> str:
    """What zsh completes in the place of a word."""
    return f"({' '.join(word.choices)})" if word.choices else {"files": "_files", "folders": "_files -/"}.get(word.what, "( )")


def said_to_zsh(text: str) -> str:
    return "".join("\\" + letter if letter in "[]:\\" else letter for letter in text)


def zsh(commands: List[Command]) -> str:
    top, *others = commands
    lines = ["#compdef wgsim", "# Completes the words of wgsim in zsh: source <(./wgsim completion zsh)", "_wgsim() {"]
    lines += ["    local state line", "    local -a commands", "    commands=("]
    lines += [f"        {quoted(f'{command.name}:{said_to_zsh(command.said)}')}" for command in others]
    lines += ["    )", "    _arguments -C \\"]
    long = [(word, name) for word in top.options for name in word.names if name.startswith("--")]
    lines += [f"        {quoted(f'{name}[{said_to_zsh(word.said)}]')} \\" for word, name in long]
    lines += ["        '1: :->command' '*:: :->words'", "    case $state in", "        command) _describe command commands ;;"]
    lines += ["        words) case $line[1] in"]
    for command in others:
        options = [(word, name) for word in command.options for name in word.names if name.startswith("--")]
        told = [f"{name}[{said_to_zsh(word.said)}]" + (f": :{by_zsh(word)}" if word.takes else "") for word, name in options]
        told += [f"{number}: :{by_zsh(word)}" for number, word in enumerate(command.places, 1)]
        lines += [f"            {command.name}) _arguments {' '.join(map(quoted, told))} ;;"]
    return "\n".join([*lines, "        esac ;;", "    esac", "}", "compdef _wgsim wgsim ./wgsim", ""])


def fish(commands: List[Command]) -> str:
    top, *others = commands
    lines = ["# Completes the words of wgsim in fish: ./wgsim completion fish | source", "complete -c wgsim -f"]
    begin = "complete -c wgsim -n __fish_use_subcommand"
    lines += [f"{begin} -l {name[2:]} -d {quoted(word.said)}" for word in top.options for name in word.names if name.startswith("--")]
    lines += [f"{begin} -a {command.name} -d {quoted(command.said)}" for command in others]
    for command in others:
        begin = f"complete -c wgsim -n {quoted(f'__fish_seen_subcommand_from {command.name}')}"
        for word in command.options:
            takes = ("" if not word.takes else " -r -F" if word.what in ("files", "folders") else " -x")
            lines += [f"{begin} -l {name[2:]}{takes} -d {quoted(word.said)}" for name in word.names if name.startswith("--")]
        lines += [f"{begin} -a {quoted(' '.join(word.choices))}" for word in command.places if word.choices]
        lines += [f"{begin} -F"] if any(word.what in ("files", "folders") for word in command.places) else []
    return "\n".join([*lines, ""])


SHELLS = {"bash": bash, "fish": fish, "zsh": zsh}
