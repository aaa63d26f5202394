"""`--text` of `sim`, `trace`, `state` and `show`: what is given are texts, and what the program prints in hex is printed as text
where it is one, by the rule of docs/OUTPUT.md. The program itself reads and prints hex. Of a call that `sim` refuses more is said
than the program does."""
import dataclasses
import io
import json
import re
import subprocess
import sys
from collections.abc import Iterator

from commands import Command, Misuse, argument, checked, given
from outcome import results, shown
from program import find

OPTION = "--text"
# What is said of the option, and the words of commands that take texts.
DOES = "--text takes texts for hex, ARG.. with a space between them, and prints texts where bytes are some"
WORDS = {"sim": ("ARG", "[ARG..]"), "trace": ("ARG", "[ARG..]"), "state": ("", ""), "show": ("", "")}
# The fields of lines of JSON that have bytes. A range has an `end` beside its `start`; that of a store is none.
FIELDS = {"arg", "result", "key", "value", "start"}
# The lines of `sim` whose words have bytes. The last word of a line may have spaces.
LINE = re.compile(r"(?P<word>read|range|write) (?P<keys>(?:(?:-|(?:[0-9a-f]{2})+) ){1,2})(?P<rest>.*)")
PUT = "put "


def with_text(command: Command) -> Command:
    """The command as this script has it, with the option where it takes that."""
    if command.name not in WORDS:
        return command
    return dataclasses.replace(command, words=f"{command.words} [{OPTION}]", does=f"{command.does};\n{DOES}")


def is_asked(command: Command, words: list[str]) -> bool:
    """Whether these words of a command ask for texts."""
    return command.name in WORDS and OPTION in (words[:words.index("--")] if "--" in words else words)


def run(command: Command, words: list[str]) -> int:
    """Runs the program, by words that are texts and printing texts where that is asked for. Its status."""
    is_text, line = is_asked(command, words), ""
    taken = hex_words(command, words) if is_text else words
    if isinstance(sys.stdout, io.TextIOWrapper):
        sys.stdout.reconfigure(encoding="utf-8")
    with subprocess.Popen([find(), command.name, *taken], stdout=subprocess.PIPE, encoding="utf-8") as ran:
        assert ran.stdout
        for line in ran.stdout:
            for it in lines_of(line.removesuffix("\n")) if is_text else [line.removesuffix("\n")]:
                print(it)
    if command.name == "sim" and line.startswith("refused "):
        # What runs modules would hold up each other command.
        import debug
        debug.tell_more(given(command, taken), str(find()), line.removesuffix("\n"))
    return ran.returncode


def hex_words(command: Command, words: list[str]) -> list[str]:
    """The words that the program takes for those that have texts."""
    taken = command.words.replace(*WORDS[command.name])
    found = checked(dataclasses.replace(command, words=taken), words)
    names = command.places()
    if names[-1:] == ["ARG"]:
        found.words[2:] = [argument(found.words[2:], is_hex=False) or "-"]
    options = [it for name, values in found.options.items() if name != OPTION for value in values for it in taken_option(name, value)]
    return [*options, *found.words]


def taken_option(name: str, value: str) -> list[str]:
    """The words of an option as the program takes them."""
    if not value:
        return [name]
    return [name, key_in_hex(value) if name == "--key" else value]


def key_in_hex(text: str) -> str:
    """A key that is a text, or hex behind 0x."""
    if not text.startswith("0x"):
        return text.encode("utf-8", "surrogateescape").hex()
    if not re.fullmatch("([0-9A-Fa-f]{2})+", text[2:]):
        raise Misuse(f"--key is a text, or hex behind 0x, and this is none: {text}")
    return text[2:]


def lines_of(line: str) -> Iterator[str]:
    """A line of the program with texts in the place of hex."""
    if line.startswith("{"):
        yield json.dumps(with_texts(json.loads(line)), ensure_ascii=False, separators=(",", ":"))
    elif line.startswith("result "):
        yield from (f"result {shown(it)}" for it in results(bytes_of(line.removeprefix("result "))))
    elif found := LINE.fullmatch(line):
        keys = " ".join(shown(bytes_of(it), is_last=False) for it in found["keys"].split())
        rest = found["rest"]
        yield f"{found['word']} {keys} " + (PUT + shown(bytes_of(rest.removeprefix(PUT))) if rest.startswith(PUT) else rest)
    else:
        yield line


def bytes_of(word: str) -> bytes:
    return bytes.fromhex(word.strip("-"))


def with_texts(value: object) -> object:
    """A value of JSON with texts in its fields of bytes. None is the empty string there."""
    if isinstance(value, list):
        return [with_texts(it) for it in value]
    if not isinstance(value, dict):
        return value
    named = FIELDS | ({"end"} if "start" in value else set())
    return {name: shown(bytes.fromhex(it)) if it and name in named and isinstance(it, str) else with_texts(it)
            for name, it in value.items()}
