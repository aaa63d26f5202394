"""The folder of a network, which `ledger new` makes: where a command takes GENESIS, the folder's name may stand for its files."""
import contextlib
import fcntl
import os
import pathlib
from collections.abc import Iterator

from commands import Command, Given, Misuse, given
from network import Mistake, quoted

GENESIS, NETWORK, STORE, KEYS = "genesis.json", "network.toml", "chain.store", "all.key"
# Files of `ledger dev`: an organisation's key file, the log, and where the first node is.
KEY, LOG, URL = "key", "log", "url"


def expanded(command: Command, words: list[str]) -> list[str]:
    """The words of a command with the files of a folder in its place. Files that are named stay as they are."""
    if command.places()[:1] != ["GENESIS"]:
        return words
    try:
        found = given(command, words)
    except Misuse:
        # Whoever takes the words says what is wrong with them.
        return words
    if not found.words or not (pathlib.Path(found.words[0]) / GENESIS).is_file():
        return words
    folder = pathlib.Path(found.words[0])
    made = list(words)
    made[found.places[0]] = str(folder / GENESIS)
    if (behind := place_of_store(command, found)) is not None:
        made.insert(behind, str(folder / STORE))
    return [*options(command, found, folder), *made]


def place_of_store(command: Command, found: Given) -> int | None:
    """Where STORE is to be put among the words; none where the command takes none, or it is there."""
    places = command.places()
    if "STORE" not in places or not command.takes_more() and len(found.words) != len(places) - 1:
        return None
    return found.places[places.index("STORE") - 1] + 1


def options(command: Command, found: Given, folder: pathlib.Path) -> list[str]:
    """The options that name files of the folder."""
    keys, store = folder / KEYS, folder / STORE
    made = []
    if "--keys" in command.options() and "--keys" not in found.options and keys.exists():
        made += ["--keys", str(keys)]
    if "--store" not in command.options() or "--store" in found.options:
        return made
    if command.name == "run" and store.exists() and store.stat().st_size:
        raise Mistake(f"{quoted(store)} has a chain, which a run would replace: name another file by --store")
    return [*made, "--store", str(store)] if command.name == "run" or store.exists() else made


@contextlib.contextmanager
def network_at(store: str) -> Iterator[str]:
    """Where the node is of the network that runs on a store. Empty where none runs: as long as this lasts, `ledger dev` waits."""
    folder = pathlib.Path(store).parent
    if pathlib.Path(store).name != STORE or not (folder / GENESIS).is_file():
        yield ""
        return
    handle = os.open(folder, os.O_RDONLY | os.O_DIRECTORY)
    try:
        yield node_of(folder, handle)
    finally:
        os.close(handle)


def node_of(folder: pathlib.Path, handle: int) -> str:
    """Where the node is of the network that has a folder, which is held where no network has it."""
    try:
        fcntl.flock(handle, fcntl.LOCK_SH | fcntl.LOCK_NB)
    except BlockingIOError:
        with contextlib.suppress(FileNotFoundError):
            return (folder / URL).read_text(encoding="ascii").strip()
        raise Mistake(f"the network in {quoted(folder)} begins or ends: try again") from None
    if (folder / LOG).exists():
        # What the network told may stand in its log alone, so that another block would part the chain.
        raise Mistake(f"a network that `ledger dev` began in {quoted(folder)} was killed: begin it once more, which saves what its log has")
    return ""
