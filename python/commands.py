"""The commands of ./ledger: how each is used, and what of that somebody gave."""
import dataclasses
import difflib
import re
from collections.abc import Iterable, Iterator

from program import ROOT
from regtuma.table import MOST

# The table of the program's commands, and a row of it: a name, words, options, and what the command does.
TABLE = ROOT / "crates" / "cli_words" / "src" / "table.rt"
ROW = re.compile(r'name: "(.*?)",\s*words: &\[(.*?)\],\s*options: &\[(.*?)\],\s*does: "\\\n(.*?)",\n', re.DOTALL)
# An option in a usage, what its value is called, and that it may stand several times.
OPTION = re.compile(r"\[(--?[a-z-]+)(?: ([^\]]+))?\](\.\.)?")


# How like a word has to be that was meant: 1 is the same.
LEAST_LIKE = 0.5


class Misuse(Exception):
    """Why words are none that a command takes."""


@dataclasses.dataclass(frozen=True)
class Command:
    """A command, its words and options as its usage shows them, and what it does, in lines."""
    name: str
    words: str
    does: str

    def usage(self) -> str:
        return f"ledger {self.name} {self.words}".rstrip()

    def help(self) -> str:
        return f"usage: {self.usage()}\n\n" + "\n".join(f"  {it}" for it in self.does.splitlines())

    def places(self) -> list[str]:
        """The names of the words that have to be there."""
        return re.sub(r"\[.*?\](\.\.)?", "", self.words).split()

    def takes_more(self) -> bool:
        """Whether more words may stand behind those."""
        return "..]" in OPTION.sub("", self.words)

    def options(self) -> dict[str, str]:
        """Its options, and what the value of each is called. It is empty where there is none."""
        return {name: value for name, value, _ in OPTION.findall(self.words)}

    def repeated(self) -> set[str]:
        """The options that may stand several times."""
        return {name for name, _, more in OPTION.findall(self.words) if more}


@dataclasses.dataclass
class Given:
    """The words that somebody gave a command, the place of each among all that was typed, and the values of options."""
    words: list[str]
    places: list[int]
    options: dict[str, list[str]]

    def option(self, name: str) -> str | None:
        """The value of an option that stands once at most."""
        values = self.options.get(name)
        return values[0] if values else None


@dataclasses.dataclass(frozen=True)
class Call:
    """A call of a chaincode on the state of a store. Its argument is in hex."""
    genesis: str
    store: str
    # The option that names a modules file, if there is one.
    modules: tuple[str, ...]
    chaincode: str
    arg: str
    is_hex: bool


def of_the_program() -> Iterator[Command]:
    """The commands of the program, by its table."""
    for name, words, options, does in ROW.findall(TABLE.read_text(encoding="utf-8")):
        taken = [f"[--{option} {value}]".replace(" ]", "]") for option, value in re.findall(r'\("(.*?)", "(.*?)"\)', options)]
        yield Command(name, " ".join([*re.findall(r'"(.*?)"', words), *taken]), does)


def nearest(word: str, known: Iterable[str]) -> str:
    """Which known word was most likely meant, in words."""
    found = difflib.get_close_matches(word, list(known), 1, LEAST_LIKE)
    return f'; did you mean "{found[0]}"?' if found else ""


def no_chaincode(name: str, known: list[str]) -> str:
    """That there is none of this name: which one was meant, or else which there are."""
    hint = nearest(name, known) or f"; there {'is' if len(known) == 1 else 'are'} {', '.join(known)}"
    return f'there is no chaincode "{name}"{hint}'


def given(command: Command, words: list[str]) -> Given:
    """What somebody gave a command, however many words that are. Behind `--` stands no option."""
    found, is_over = Given([], [], {}), False
    rest = iter(enumerate(words))
    for place, word in rest:
        if is_over or word == "-" or not word.startswith("-"):
            found.words.append(word)
            found.places.append(place)
        elif word == "--":
            is_over = True
        else:
            name = word.partition("=")[0]
            values = found.options.setdefault(name, [])
            values.append(_value(command, word, rest))
            if len(values) > 1 and name not in command.repeated():
                raise Misuse(f"{name} stands twice")
    return found


def checked(command: Command, words: list[str]) -> Given:
    """The same, where all its words are there, and no others."""
    found, places = given(command, words), command.places()
    if missing := places[len(found.words):]:
        raise Misuse(f"{missing[0]} is missing")
    if len(found.words) > len(places) and not command.takes_more():
        raise Misuse(f"{found.words[len(places)]!r} is one word too many")
    return found


def _value(command: Command, word: str, rest: Iterator[tuple[int, str]]) -> str:
    """The value of an option, which stands in its word or in the next one."""
    name, equals, value = word.partition("=")
    known = command.options()
    if name not in known:
        behind = "; what stands behind -- is no option" if command.takes_more() else ""
        raise Misuse(f"there is no option {name}{nearest(name, known) or behind}")
    if not known[name]:
        if equals:
            raise Misuse(f"{name} has no value")
        return ""
    if equals:
        return value
    _, value = next(rest, (0, ""))
    if not value:
        raise Misuse(f"the value {known[name]} of {name} is missing")
    return value


def argument(args: list[str], is_hex: bool) -> str:
    """The argument of a call, in hex: texts with a space between, or one word of hex."""
    if is_hex:
        if len(args) != 1 or not re.fullmatch("-|([0-9A-Fa-f]{2})+", args[0]):
            raise Misuse("with --hex there has to be one ARG, of hex, or - for none")
        made = args[0].strip("-").lower()
    else:
        try:
            made = " ".join(args).encode().hex()
        except UnicodeEncodeError as error:
            raise Misuse("ARG is no UTF-8; --hex takes other bytes") from error
    most = MOST["value_bytes"]
    if len(made) > 2 * most:
        raise Misuse(f"an argument has up to {most:,} bytes, and this one has {len(made) // 2:,}")
    return made


def modules(found: Given) -> tuple[str, ...]:
    """The option that names a modules file, if there is one."""
    file = found.option("--modules")
    return ("--modules", file) if file else ()
