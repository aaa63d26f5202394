"""What ./ledger says of a command's words and files before it is done: what the program says by a number alone, or not at all."""
import collections
import contextlib
import json
import os
import re
import stat
from collections.abc import Iterator

from commands import Command, Given, Misuse, given, no_chaincode
from keys import tell_of_open_files
from membership import Ledger
from network import Mistake
from program import find, say
from rfc8032 import secret_to_public
from wasm_module import CUSTOM, MOST_PAGES, Malformed, Reader

GENESIS, MODULE, MODULES, STORE = "a genesis file", "a module", "a modules file", "a store"
EVENTS, KEYS, NETWORK, OBJECT = "a file of events", "a key file", "a network file", "an object file"
WAT, JSON, TEXT = "a text of WebAssembly", "JSON", "a text"
# What files have to be, by the words and the options that name them.
WANTED = {"GENESIS": GENESIS, "STORE": STORE, "MODULE": MODULE, "EVENTS": EVENTS, "KEYS": KEYS, "NETWORK.toml": NETWORK,
          "--store": STORE, "--modules": MODULES, "--keys": KEYS}
# How files begin. A record of a store begins with a length and the number of its block.
BEGINNINGS = [(rb"\x00[\x00-\x08].{2}\x00\x00\x00\x01", STORE), (rb"\x00asm", MODULE),
              (rb"\x7fELF", "an object file of this machine"), (rb'\s*\{[^\n]*"do"\s*:', EVENTS), (rb'\s*\{.*"(orgs|chaincodes)"', GENESIS), (rb"\s*\[\s*\{", MODULES),
              (rb"\s*[{[]", JSON), (rb"[0-9A-Fa-f]{64}\s", KEYS), (rb"\s*\(module", WAT),
              (rb"(\s|#[^\n]*\n)*(\[\w|\w[\w.]*\s*=)", NETWORK), (rb"[\t\n\r -~]+\Z", TEXT)]
# What tells nothing where a text is wanted.
UNSURE = {"", JSON, TEXT}
# What is done about a file that is of another kind than what it has to be.
REMEDIES = {(MODULE, OBJECT): "link it by wasm-ld, or build its source by `ledger cc`",
            (MODULE, WAT): "wat2wasm makes a module of it",
            (GENESIS, NETWORK): "`ledger genesis` makes a genesis file of it"}
ENCODINGS = [(b"\xef\xbb\xbf", "begins with a byte order mark: save it without"),
             (b"\xff\xfe", "is in UTF-16: save it as UTF-8"), (b"\xfe\xff", "is in UTF-16: save it as UTF-8")]
# `page` is done by `show`, and `modules` tells of each module where it is refused.
TOLD_LATER = {"page", "modules"}
# Commands that call a chaincode, and those that sign for organisations; and what a key file has.
CALLING, SIGNING, SEEDS = {"sim", "trace", "threads"}, {"run", "threads", "peer"}, re.compile("([0-9A-Fa-f]{64}\n)+")
# So much of a file is read to see of which kind it is, of a module, and of a genesis file.
FIRST, WHOLE, MOST = 4096, 1 << 20, 1 << 26
MEMORY = 5


def tell(command: Command, words: list[str]) -> None:
    """Says what there is to be said of the words of a command."""
    if command.name in TOLD_LATER:
        return
    tell_of_open_files(words)
    try:
        found = given(command, words)
    except Misuse:
        # Whoever takes the words says what is wrong with them.
        return
    for place, file in files_of(command, found):
        for it in of_file(place, file):
            say(it)
    for it in [*of_chaincode(command, found), *of_keys(command, found)]:
        say(it)


def files_of(command: Command, found: Given) -> Iterator[tuple[str, str]]:
    """The files among a command's words, with what names them. What a run writes is none."""
    for place, word in [*zip(command.places(), found.words), *((name, it) for name, all in found.options.items() for it in all)]:
        if place in WANTED and (command.name, place) != ("run", "--store"):
            yield place, word


def first_of(file: str, most: int) -> bytes:
    """The beginning of a file; nothing where it is none, or not to be read."""
    try:
        if not stat.S_ISREG(os.stat(file).st_mode):
            return b""
        with open(file, "rb") as source:
            return source.read(most)
    except (OSError, ValueError):
        return b""


def of_file(place: str, file: str) -> Iterator[str]:
    """What is wrong with a file at first sight."""
    wanted, data = WANTED[place], first_of(file, FIRST)
    for mark, why in ENCODINGS:
        if data.startswith(mark) and wanted not in (STORE, MODULE):
            yield f"{file} {why}"
            return
    kind = kind_of(file, data)
    if kind != wanted and (kind not in UNSURE or kind and wanted in (STORE, MODULE)):
        remedy = REMEDIES.get((wanted, kind), "")
        yield f"{file} looks like {kind}, and {place} has to be {wanted}" + (f": {remedy}" if remedy else "")
    elif kind == MODULE and (pages := looked_into(file)[1]) > MOST_PAGES:
        yield (f"{file} wants {pages} pages of memory, and {MOST_PAGES} are the most: link it with -z stack-size=8192, "
               "in Rust by -C link-arg=-zstack-size=8192")
    elif kind in (GENESIS, MODULES, EVENTS, JSON):
        yield from (f"{file} has the field {json.dumps(name)} twice in an object: the last one counts" for name in doubles(file, kind))


def kind_of(file: str, data: bytes) -> str:
    """What a file is by its beginning; nothing where that does not tell."""
    kind = next((kind for beginning, kind in BEGINNINGS if re.match(beginning, data, re.DOTALL)), "")
    return OBJECT if kind == MODULE and looked_into(file)[0] else kind


def looked_into(file: str) -> tuple[bool, int]:
    """Whether a module is an object file, and how many pages its memory has from the beginning, as far as its sections are whole."""
    data, is_object, pages = first_of(file, WHOLE), False, 0
    whole = Reader(data, min(8, len(data)), len(data))
    with contextlib.suppress(Malformed, IndexError):
        while whole.at < whole.end:
            id, section = whole.part()
            is_object = is_object or id == CUSTOM and section.text() == "linking"
            pages = section.list(section.limits)[0][0] if id == MEMORY else pages
    return is_object, pages


def doubles(file: str, kind: str) -> list[str]:
    """The fields that stand twice in an object of a file of JSON, or at the beginning of one of events, whose lines are JSON."""
    texts = first_of(file, WHOLE).split(b"\n") if kind == EVENTS else [first_of(file, MOST)]
    found: dict[str, None] = {}

    def look(fields: list[tuple[str, object]]) -> None:
        counts = collections.Counter(name for name, _ in fields)
        found.update((name, None) for name, count in counts.items() if count > 1)
    for text in texts:
        # Whoever takes what is no JSON says so.
        with contextlib.suppress(ValueError, RecursionError):
            json.loads(text, object_pairs_hook=look)
    return list(found)


def chaincodes_in(genesis: str) -> list[str]:
    """The names of a genesis file's chaincodes, where it is one."""
    try:
        return [str(it["name"]) for it in json.loads(first_of(genesis, MOST))["chaincodes"]]
    except (ValueError, LookupError, TypeError, RecursionError):
        return []


def of_chaincode(command: Command, found: Given) -> Iterator[str]:
    """Which chaincode was meant of a genesis file's, and of those that a store has beside."""
    if command.name not in CALLING or len(found.words) < 2:
        return
    known, store = chaincodes_in(found.words[0]), found.option("--store")
    if not known or found.words[1] in known or store and not os.path.isfile(store):
        return
    # Of files that are refused it is told why.
    with contextlib.suppress(ValueError, LookupError, TypeError, Mistake):
        if store:
            known = [name for name, _ in Ledger(str(find()), found.words[0], store).policies()]
        if found.words[1] not in known:
            yield no_chaincode(found.words[1], known)


def of_keys(command: Command, found: Given) -> Iterator[str]:
    """Whose seeds a key file lacks, and whose it has."""
    file = found.option("--keys")
    if file is not None and command.name in SIGNING:
        # Whoever takes files that are of another kind says so.
        with contextlib.suppress(ValueError, LookupError, TypeError, AttributeError, RecursionError, Mistake):
            lacking, had = in_key_file(command.name, found, file)
            if lacking:
                yield f"{file} lacks {seeds_of(lacking)}, and has {seeds_of(had)}"


def in_key_file(name: str, found: Given, file: str) -> tuple[list[str], list[str]]:
    """The organisations that are to sign by a key file which has no seed of theirs, and those whose seeds it has."""
    genesis, seeds = json.loads(first_of(found.words[0], MOST)), first_of(file, FIRST).decode("ascii")
    if not SEEDS.fullmatch(seeds):
        return [], []
    publics = {secret_to_public(bytes.fromhex(it)).hex() for it in seeds.split()}
    org = found.option("--org")
    signers = ([org] if org else []) if name == "peer" else genesis["peers"][:1 if name == "threads" else None]
    keys = [(it["name"], it.get("public")) for it in genesis["orgs"]]
    if name == "peer" and org and not is_able(org, keys, publics) and os.path.isfile(found.words[1]):
        keys += [(it.name, it.public.hex()) for it in Ledger(str(find()), *found.words[:2]).stands().members if it.public]
    lacking = [it for it in signers if it in dict(keys) and not is_able(it, keys, publics)]
    return lacking, list(dict.fromkeys(name for name, key in keys if key and key.lower() in publics))


def is_able(org: str, keys: list[tuple[str, str | None]], publics: set[str]) -> bool:
    """Whether somebody can sign for an organisation who has the seeds of these public keys. Shared keys everybody has."""
    return any(name == org and (key is None or key.lower() in publics) for name, key in keys)


def seeds_of(names: list[str]) -> str:
    """Seeds in words."""
    return f"the seed{'s' if len(names) > 1 else ''} of {', '.join(names)}" if names else "none of this ledger's"
