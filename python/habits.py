"""What people try first: --help, --version, `-` for the standard input, completion for bash, a man page. All is made of the
commands' usages."""
import re
from collections.abc import Iterable, Mapping

from commands import Command, Misuse, given, nearest

# Words that name a file to read.
FILES = {"MODULE", "GENESIS", "EVENTS", "STORE", "KEYS", "FILE"}
INPUT = "/dev/stdin"
# What the man page says.
FOLDERS = ("Where a command takes GENESIS, the folder of a network may stand for it, which `ledger new` made. STORE, --store and "
           "--keys are then the folder's, unless they are given.")
STATUSES = "0 where the task was done; 1 where it was refused; 2 where the words name no task."
# Commands that read lines, that read one file several times, or that write one.
NONE_OF_THE_INPUT = {"peer", "call", "debug", "keygen"}


def asked(words: list[str], known: Mapping[str, Command], version: str) -> str | None:
    """What is printed for words that ask for help; none where they do not."""
    match words:
        case ["--version" | "-V"]:
            return f"ledger {version}"
        case ["help", name] if name not in known:
            raise Misuse(f"there is no command {name}{nearest(name, known)}")
        case ["help", name]:
            return known[name].help()
        case [name, *rest] if name in known and {"--help", "-h"} & set(rest[:rest.index("--")] if "--" in rest else rest):
            return known[name].help()
    return None


def with_input(command: Command, words: list[str]) -> list[str]:
    """The words with the standard input for `-` where a file is read."""
    if command.name in NONE_OF_THE_INPUT or "-" not in words:
        return words
    try:
        found = given(command, words)
    except Misuse:
        return words
    made = list(words)
    for name, word, place in zip(command.places(), found.words, found.places):
        if word == "-" and name in FILES:
            made[place] = INPUT
    for place, (option, word) in enumerate(zip(words, words[1:]), 1):
        if word == "-" and place not in found.places and command.options().get(option) in FILES:
            made[place] = INPUT
    if made.count(INPUT) > 1:
        raise Misuse("the standard input is read once")
    return made


def completion(known: Iterable[Command]) -> str:
    """What bash reads to complete words: names of commands, options, and else files."""
    names = " ".join([*(it.name for it in known), "help"])
    options = [f'            {it.name}) words="{" ".join([*it.options(), "--help"])}" ;;' for it in known]
    return "\n".join([
        "_ledger() {",
        '    local word="${COMP_WORDS[COMP_CWORD]}" words=""',
        '    if [ "$COMP_CWORD" = 1 ]; then',
        f'        words="{names} --help --version"',
        '    elif [ "${COMP_WORDS[1]}" = help ]; then',
        f'        words="{names}"',
        '    elif [ "${word:0:1}" = - ]; then',
        '        case "${COMP_WORDS[1]}" in',
        *options,
        "        esac",
        "    fi",
        '    COMPREPLY=($(compgen -W "$words" -- "$word"))',
        "}",
        "complete -o bashdefault -o default -F _ledger ledger ./ledger"])


def man(known: Iterable[Command], version: str) -> str:
    """A man page."""
    lines = [f'.TH LEDGER 1 "" "Regtuma {version}" "User Commands"', ".SH NAME", "ledger \\- a ledger that you can check",
             ".SH SYNOPSIS", ".B ledger", ".I COMMAND", "[\\fIWORD\\fR ..]", ".SH DESCRIPTION", roff(FOLDERS), ".SH COMMANDS"]
    for it in known:
        lines += [".TP", f".B {roff(it.usage())}", roff(it.does)]
    return "\n".join([*lines, ".SH EXIT STATUS", STATUSES, ".SH SEE ALSO", roff("docs/INPUT.md and docs/OUTPUT.md")])


def roff(text: str) -> str:
    """A text as it stands."""
    return re.sub(r"(?m)^([.'])", r"\\&\1", text.replace("\\", "\\e").replace("-", "\\-"))
