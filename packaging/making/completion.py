"""The completion of lnsd for bash, made from what its --help prints."""

import re

COMMAND = re.compile(r"^  ([a-z]+)  ", re.MULTILINE)
OPTION = re.compile(r"^ +(?:-[a-zA-Z], )?(--[a-z-]+)", re.MULTILINE)

TEXT = """\
# bash completion of lnsd                                                    -*- shell-script -*-
_lnsd() {
    local cur prev words cword options
    _init_completion || return
    if [ "$cword" -eq 1 ]; then
        mapfile -t COMPREPLY < <(compgen -W "@COMMANDS@" -- "$cur")
        return
    fi
    case ${words[1]} in
@CASES@
    *) options="--help" ;;
    esac
    case $prev in
    --above | --names) _filedir && return ;;
    --listen) mapfile -t COMPREPLY < <(compgen -W "127.0.0.1:5600" -- "$cur") && return ;;
    --*) return ;;
    esac
    case $cur in
    -*) mapfile -t COMPREPLY < <(compgen -W "$options" -- "$cur") ;;
    *) _filedir ;;
    esac
} && complete -F _lnsd lnsd
"""


def commands_of(text: str) -> list[str]:
    """The subcommands that --help lists."""
    listed = text.partition("\nCommands:\n")[2].partition("\n\n")[0]
    return COMMAND.findall(listed)


def options_of(text: str) -> list[str]:
    """The options that --help lists."""
    listed = text.partition("\nOptions:\n")[2].partition("\n\n")[0]
    return OPTION.findall(listed)


def completion(top: str, helps: dict[str, str]) -> str:
    """The completion, from the --help of lnsd and from that of each subcommand."""
    options = {name: " ".join(options_of(text)) for name, text in helps.items()}
    cases = [f'    {name}) options="{words}" ;;' for name, words in options.items()]
    commands = " ".join([*commands_of(top), *options_of(top)])
    return TEXT.replace("@COMMANDS@", commands).replace("@CASES@", "\n".join(cases))
