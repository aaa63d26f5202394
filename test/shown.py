"""What `show`, `state`, `marks`, `checkpoint` and a peer that is asked questions print of the stores of test/cases, worked out from
their bytes by docs/OUTPUT.md."""
import hashlib
import hmac
import json
import pathlib
import re
import sys
from collections.abc import Callable, Iterator
from typing import Any, TypeVar

from checkpoints import checkpoint_of
from tree import ROOT

sys.path.insert(0, str(ROOT / "python"))
import rfc8032

DATA = ROOT / "test/cases/data"
VALID, UNENDORSED = 0, 1
# Stores whose flags are others by the rules than those that they hold, and genesis files by which no call is endorsed.
FORGED = {"differs.store", "differs-unlinked.store", "unlinked-differs.store"}
UNENDORSED_BY = {"older.store", "names.json"}
# Its chaincode reads, and those of the other genesis files only put.
REREAD = "get.json"
PUTS = hashlib.sha256(bytes.fromhex(json.loads((DATA / "put.json").read_text())["chaincodes"][0]["module"])).hexdigest()
# The greatest number that a block can have.
LAST_BLOCK = 4_000_000_000
# The first byte of a proposal that is an amendment, and what the first byte of a definition that is open has more.
AMENDMENT, OPEN = 0x80, 16
# How many bytes of a record stand before its block and behind its flags.
AROUND = 36
Item = TypeVar("Item")
# The modules at hand, by digests and profiles.
Modules = set[tuple[str, int]]


class Bytes:
    """Bytes that are read from the front."""

    def __init__(self, data: bytes):
        self.data, self.at = data, 0

    def take(self, count: int) -> bytes:
        self.at += count
        return self.data[self.at - count : self.at]

    def number(self, size: int) -> int:
        return int.from_bytes(self.take(size), "big")

    def hex(self, size: int) -> str:
        return self.take(self.number(size)).hex()

    def name(self) -> str:
        return self.take(self.number(1)).decode()

    def list(self, size: int, item: Callable[[], Item]) -> list[Item]:
        return [item() for _ in range(self.number(size))]

    def option(self, item: Callable[[], Item]) -> Item | None:
        return item() if self.number(1) else None

    def version(self) -> str:
        return f"{self.number(4)}.{self.number(4)}"

    def key_with(self, field: str, item: Callable[[], object]) -> dict:
        return {"key": self.hex(1), field: item()}

    def range(self) -> dict:
        start, end, limit = self.hex(1), self.hex(1), self.number(1)
        entries = self.list(1, lambda: self.key_with("version", self.version))
        return {"start": start, "end": end, "limit": limit, "entries": entries}

    def definition(self) -> dict:
        profile, module, fuel = self.number(1), self.take(32).hex(), self.number(4)
        return {"profile": profile, "module": module, "fuel": fuel, "policy": self.take(self.number(2)).decode()}

    def member(self) -> dict:
        name, public = self.name(), self.option(lambda: self.take(32).hex())
        return {"name": name} if public is None else {"name": name, "public": public}

    def membership(self) -> dict:
        self.take(1)
        serial, members = self.number(4), self.list(1, self.member)
        return {"serial": serial, "members": members, "policy": self.take(self.number(2)).decode()}

    def proposed(self) -> dict:
        if self.data[self.at] == AMENDMENT:
            self.take(1)
            return {"amend": self.membership()}
        name = self.name()
        return {"chaincode": name, "arg": self.hex(2)} if name else {"chaincode": self.name(), "upgrade": self.definition()}

    def proposal(self) -> dict:
        return {**self.proposed(), "nonce": self.take(16).hex()}

    def endorsement(self) -> dict:
        org = self.name()
        if not org:
            return {"org": self.name(), "tag": self.take(64).hex()}
        return {"org": org, "tag": self.take(32).hex()}

    def envelope(self, keys: dict[str, dict]) -> dict:
        begin = self.at
        tx = self.proposal()
        tx["id"] = hashlib.sha256(self.data[begin : self.at]).hexdigest()
        tx["result"] = self.hex(2)
        tx["reads"] = self.list(2, lambda: self.key_with("version", lambda: self.option(self.version)))
        tx["ranges"] = self.list(2, self.range)
        tx["writes"] = self.list(2, lambda: self.key_with("value", lambda: self.option(lambda: self.hex(2))))
        payload = self.data[begin : self.at]
        tx["endorsements"] = self.list(1, self.endorsement)
        for it in tx["endorsements"]:
            it["right"] = it["org"] in keys and is_right(keys[it["org"]], payload, bytes.fromhex(it["tag"]))
        return tx


def read_genesis(text: bytes) -> dict:
    """A genesis file, with its SHA-256."""
    return {"rules": 1, **json.loads(text), "digest": hashlib.sha256(text).hexdigest()}


def front_of(genesis: dict) -> bytes:
    """What stands in front of what is signed in the ledger of a genesis file."""
    return b"\xfftag " + bytes.fromhex(genesis["digest"]) if genesis["rules"] > 1 else b""


def is_right(org: dict, payload: bytes, tag: bytes) -> bool:
    """Whether a tag is right under the key of an organisation, as a genesis file lists it, with the front of what is signed."""
    if "public" in org:
        return len(tag) == 64 and rfc8032.verify(bytes.fromhex(org["public"]), org["front"] + payload, tag)
    return hmac.digest(bytes.fromhex(org["key"]), payload, "sha256") == tag


def block_of(record: bytes, keys: dict[str, dict]) -> tuple[dict, bool, list[int]]:
    """A block as it is shown by who stands before it, whether its data have the hash in its header, and its stored flags."""
    data = Bytes(record)
    header = data.take(68)
    previous, data_hash = header[4:36].hex(), header[36:].hex()
    begin = data.at
    txs = data.list(2, lambda: data.number(4) and data.envelope(keys))
    is_whole = hashlib.sha256(record[begin : data.at]).hexdigest() == data_hash
    hashes = {"hash": hashlib.sha256(header).hexdigest(), "previous": previous, "data": data_hash}
    return {"block": int.from_bytes(header[:4], "big"), **hashes, "txs": txs}, is_whole, list(data.take(len(txs)))


def records(store: bytes) -> tuple[list[bytes], str]:
    """The records of a store, and how it ends."""
    data = Bytes(store)
    found: list[bytes] = []
    while data.at < len(store):
        begin = data.at
        block = data.take(data.number(4))
        flags = data.take(int.from_bytes(block[68:70], "big"))
        digest = data.take(32)
        if data.at > len(store):
            return found, "refused 701"
        if hashlib.sha256(store[begin : data.at - 32]).digest() != digest:
            return found, f"refused 702 block {len(found) + 1}"
        found.append(block + flags)
    return found, "clean"


def flags_by_rule(stored: list[int], genesis_name: str, store_name: str) -> list[int]:
    """The flags of a block by the rules."""
    if {genesis_name, store_name} & UNENDORSED_BY:
        return [UNENDORSED] * len(stored)
    return [VALID] * len(stored) if store_name in FORGED else stored


def amended(blocks: list[dict]) -> dict | None:
    """The membership that the last VALID amendment puts."""
    txs = [tx for block in blocks for tx in block["txs"] if tx["flag"] == VALID and "amend" in tx]
    return txs[-1]["amend"] if txs else None


def keys_behind(blocks: list[dict], listed: dict[str, dict], front: bytes) -> dict[str, dict]:
    """The keys of who stands behind blocks, as a genesis file lists them, with the front of what is signed under them: a member
    without a key of its own keeps its key."""
    membership = amended(blocks)
    members = listed.values() if membership is None else membership["members"]
    keys = {it["name"]: it if "public" in it else listed[it["name"]] for it in members}
    return {name: {**it, "front": front} for name, it in keys.items()}


def lacks_module(tx: dict, at_hand: Modules) -> bool:
    """Whether a rerun of the chain needs a module for this transaction that is not among these."""
    if tx["flag"] != VALID or "upgrade" not in tx:
        return False
    return (tx["upgrade"]["module"], tx["upgrade"]["profile"] % OPEN) not in at_hand


def rerun_of(blocks: list[dict], genesis_name: str, store_name: str, at_hand: Modules) -> str:
    """What is found of a chain with the flags of the rules, where it is run again with these modules at hand."""
    for block in blocks:
        if any(lacks_module(tx, at_hand) for tx in block["txs"]):
            return f"refused 406 block {block['block']}"
    return "differs 1.0" if genesis_name == REREAD and store_name == "whole.store" else "agrees"


def chain_of(store: bytes, genesis_name: str, store_name: str, genesis: dict, at_hand: Modules) -> tuple[list[dict], dict]:
    """The blocks of a store that fit, and what is found of it."""
    listed, front = {it["name"]: it for it in genesis["orgs"]}, front_of(genesis)
    stored, end = records(store)
    blocks: list[dict] = []
    link, audit = bytes(32).hex(), ""
    for record in stored:
        block, is_whole, flags = block_of(record, keys_behind(blocks, listed, front))
        if block["previous"] != link or not is_whole:
            audit = audit or ("refused 602" if block["previous"] != link else "refused 603")
            break
        ruled = flags_by_rule(flags, genesis_name, store_name)
        if ruled != flags:
            audit = audit or f"flags differ {block['block']}"
        for tx, flag in zip(block["txs"], ruled):
            tx["flag"] = flag
        blocks.append(block)
        link = block["hash"]
    audit = audit or rerun_of(blocks, genesis_name, store_name, at_hand)
    rerun = sum(tx["flag"] == VALID for block in blocks for tx in block["txs"]) if audit == "agrees" else 0
    return blocks, {"audit": audit, "rerun": rerun, "blocks": len(blocks), "end": end}


def installed(it: dict) -> dict:
    """A module of a genesis file or of a modules file as it is shown."""
    return {"module": hashlib.sha256(bytes.fromhex(it["module"])).hexdigest(), "profile": it["profile"]}


def setting_of(genesis: dict) -> dict:
    """What a genesis file sets; its policies have no spaces within names."""
    chaincodes = [
        {"name": it["name"], "policy": it["policy"].replace(" ", ""), "fuel": it["fuel"], **installed(it)}
        for it in genesis["chaincodes"]
    ]
    limits = {name: genesis[name] for name in ("peers", "count", "preferred", "absolute", "reorder")}
    rules = {"rules": genesis["rules"], "digest": genesis["digest"]} if genesis["rules"] > 1 else {}
    modules = [installed(it) for it in [*genesis["chaincodes"], *genesis["modules"]]]
    orgs = [{"name": it["name"], "public": it["public"]} if "public" in it else it["name"] for it in genesis["orgs"]]
    upgrade = genesis["upgrade"].replace(" ", "")
    return {"ledger": 1, "orgs": orgs, "chaincodes": chaincodes, "modules": modules, "upgrade": upgrade, **limits, **rules}


def placed_writes(blocks: list[dict]) -> Iterator[dict]:
    """Each write of a VALID transaction, with its place."""
    for block in blocks:
        for place, tx in enumerate(block["txs"]):
            for write in tx["writes"] if tx["flag"] == VALID else []:
                yield {**write, "block": block["block"], "place": place, "id": tx["id"]}


def entries_of(blocks: list[dict]) -> list[dict]:
    state = {it["key"]: it for it in placed_writes(blocks)}
    kept = [state[key] for key in sorted(state) if state[key]["value"] is not None]
    return [{"key": it["key"], "value": it["value"], "version": f"{it['block']}.{it['place']}"} for it in kept]


def standing_of(genesis: dict, blocks: list[dict]) -> dict:
    """Who stands behind blocks, and by which policy."""
    if membership := amended(blocks):
        return membership
    members = [{"name": it["name"]} for it in genesis["orgs"]]
    return {"members": members, "policy": genesis["upgrade"].replace(" ", ""), "serial": 0}


def marks_of(record: bytes) -> list[str]:
    """The marks of a block: its envelopes, and a tick."""
    data = Bytes(record)
    data.take(68)
    return [*data.list(2, lambda: data.hex(4)), "tick"]


# What calls of other modules than those that put come to (ends.json).
ENDS = {"status": "404 status -7", "trap": "402 trap 1", "zero": "402 trap 2"}


def definition_of(name: str, genesis: dict, blocks: list[dict]) -> tuple[dict, str | None] | None:
    """The definition of a chaincode behind blocks, as an upgrade shows it, and the version of its key. None where there is
    none."""
    key = "00" + name.encode().hex()
    entry = next((it for it in entries_of(blocks) if it["key"] == key), None)
    if entry:
        return Bytes(bytes.fromhex(entry["value"])).definition(), entry["version"]
    listed = next((it for it in setting_of(genesis)["chaincodes"] if it["name"] == name), None)
    return (listed, None) if listed else None


def outcome(name: str, genesis: dict, blocks: list[dict], at_hand: Modules) -> dict:
    """What a call of a chaincode comes to."""
    found = definition_of(name, genesis, blocks)
    if found is None:
        return {"refused": "401"}
    definition, at = found
    if (definition["module"], definition["profile"] % OPEN) not in at_hand:
        return {"refused": "406"}
    if name in ENDS:
        return {"refused": ENDS[name]}
    reads = [{"key": "00" + name.encode().hex(), "version": at}]
    if definition["module"] != PUTS:
        version = next((it["version"] for it in entries_of(blocks) if it["key"] == "61"), None)
        reads.append({"key": "61", "version": version})
    # Under rules 2 the key is none of the chaincode's own, and the module does not look at the answer.
    writes = [{"key": "61", "value": "31"}] if genesis["rules"] == 1 else []
    return {"ranges": [], "reads": reads, "result": "", "writes": writes}


def is_satisfied(policy: str, orgs: list[str]) -> bool:
    """Whether these organisations satisfy a policy."""
    text = re.sub(r"'(\w+)'", lambda it: str(it[1] in orgs), policy)
    functions = {"AND": lambda *of: all(of), "OR": lambda *of: any(of), "OutOf": lambda n, *of: sum(of) >= n}
    return eval(text, functions)


def is_hex(text: object, least: int, most: int) -> bool:
    return isinstance(text, str) and re.fullmatch("([0-9a-fA-F]{2})*", text) is not None and least <= len(text) // 2 <= most


def is_bound(text: object) -> bool:
    return is_hex(text, 0, 64)


def is_number(number: object, most: int) -> bool:
    return isinstance(number, int) and 1 <= number <= most


def are_names(names: object) -> bool:
    return isinstance(names, list) and len(names) <= 32 and all(re.fullmatch(r"\w{1,32}", it, re.ASCII) for it in names)


def are_texts(texts: object) -> bool:
    return isinstance(texts, list) and all(isinstance(it, str) for it in texts) and len(" ".join(texts).encode()) <= 4096


# The fields of each question, and what each may hold.
QUESTIONS: dict[str, dict[str, Callable[[Any], object]]] = {
    "setting": {},
    "members": {},
    "block": {"number": lambda it: is_number(it, LAST_BLOCK)},
    "get": {"key": lambda it: is_hex(it, 1, 64)},
    "range": {"start": is_bound, "end": is_bound, "limit": lambda it: is_number(it, 1000)},
    "history": {"key": lambda it: is_hex(it, 1, 64)},
    "transaction": {"id": lambda it: is_hex(it, 32, 32)},
    "satisfied": {"chaincode": lambda it: re.fullmatch("[a-z0-9_-]{1,32}", it), "orgs": are_names},
    "call": {"chaincode": lambda it: re.fullmatch("[a-z0-9_-]{1,32}", it), "arg": lambda it: is_hex(it, 0, 4096)},
}
# Those of a call by texts, and of a part of a history.
BY_TEXTS = {"chaincode": QUESTIONS["call"]["chaincode"], "args": are_texts}
OF_A_PART = {**QUESTIONS["history"], "from": QUESTIONS["block"]["number"], "blocks": QUESTIONS["range"]["limit"]}


def question_of(line: str) -> dict | None:
    """The question that a line spells. None where it spells none."""
    try:
        it = json.loads(line)
    except ValueError:
        return None
    if not isinstance(it, dict) or it.get("ask") not in QUESTIONS:
        return None
    other = {"call": ("args", BY_TEXTS), "history": ("from", OF_A_PART)}.get(it["ask"])
    fields = other[1] if other and other[0] in it else QUESTIONS[it["ask"]]
    return it if {*it} == {"ask", *fields} and all(fits(it[name]) for name, fits in fields.items()) else None


def answer(it: dict, genesis: dict, blocks: list[dict], at_hand: Modules) -> object:
    """The answer to a question behind blocks."""
    match it["ask"]:
        case "setting":
            return setting_of(genesis)
        case "members":
            return standing_of(genesis, blocks)
        case "block":
            return next((block for block in blocks if block["block"] == it["number"]), None)
        case "get":
            return next((one for one in entries_of(blocks) if one["key"] == it["key"].lower()), None)
        case "range":
            start, end = it["start"].lower(), it["end"].lower()
            kept = [one for one in entries_of(blocks) if start <= one["key"] and one["key"][:2] != "00"]
            return [one for one in kept if not end or one["key"] < end][: it["limit"]]
        case "history":
            first = it.get("from", 1)
            part = blocks[first - 1:first - 1 + it.get("blocks", len(blocks))]
            return [one for one in placed_writes(part) if one["key"] == it["key"].lower()]
        case "transaction":
            placed = ({**tx, "block": block["block"], "place": at} for block in blocks for at, tx in enumerate(block["txs"]))
            return next((tx for tx in placed if tx["id"] == it["id"].lower()), None)
        case "satisfied":
            found = definition_of(it["chaincode"], genesis, blocks)
            standing = {member["name"] for member in standing_of(genesis, blocks)["members"]}
            return found and is_satisfied(found[0]["policy"], [org for org in it["orgs"] if org in standing])
        case _:
            return outcome(it["chaincode"], genesis, blocks, at_hand)


def answers(lines: list[bytes], genesis: dict, blocks: list[dict], at_hand: Modules) -> Iterator[str]:
    """The answers to lines that ask questions."""
    for number, line in enumerate(lines, 1):
        try:
            _, tag, words = line.decode().split(" ", 2)
        except UnicodeDecodeError:
            yield f"bad line {number}"
            continue
        question = question_of(words)
        said = "bad" if question is None else text_of(answer(question, genesis, blocks, at_hand))
        yield f"answer {tag} {len(blocks)} {said}"


def text_of(value: object) -> str:
    """JSON as the program prints it."""
    return json.dumps(value, separators=(",", ":"), sort_keys=True)


def options_of(words: list[str]) -> dict[str, str]:
    """The options of a command line; of one without a value it is that it is there."""
    return {word: value for word, value in zip(words, [*words[1:], ""]) if word.startswith("--")}


def shown(words: list[str], folder: pathlib.Path, asked: list[bytes]) -> tuple[list, int]:
    """The lines that a command prints, as values; and its status."""
    command, genesis_name, store_name, *rest = words
    options = options_of(rest)
    genesis = read_genesis((folder / genesis_name).read_bytes())
    held = json.loads((folder / options["--modules"]).read_text()) if "--modules" in options else []
    modules = map(installed, [*genesis["chaincodes"], *genesis["modules"], *held])
    at_hand = {(it["module"], it["profile"]) for it in modules}
    store = (folder / store_name).read_bytes()
    blocks, found = chain_of(store, genesis_name, store_name, genesis, at_hand)
    if command == "show":
        first, last = int(options.get("--from", 1)), int(options.get("--to", LAST_BLOCK))
        within = [it for it in blocks if first <= it["block"] <= last]
        return [setting_of(genesis), *within, found], int((found["audit"], found["end"]) != ("agrees", "clean"))
    if found["audit"].startswith("flags differ"):
        return [f"refused 711 block {found['audit'].split()[-1]}"], 1
    # No module is needed for a state.
    audit = "agrees" if found["audit"].startswith("refused 406") else found["audit"]
    # A peer cuts off a part of a record, and a checkpoint leaves it out. Both say which block does not fit.
    if command in ("peer", "checkpoint"):
        audit += f" block {len(blocks) + 1}" if audit.startswith("refused") else ""
        found["end"] = "clean" if found["end"] == "refused 701" else found["end"]
    for refusal in audit, found["end"]:
        if refusal.startswith("refused"):
            return [refusal], 1
    if command == "peer":
        whole = sum(len(it) + AROUND for it in records(store)[0])
        opened = [*([f"cut {len(store) - whole}"] if whole < len(store) else []), f"height {len(blocks)}"]
        return [*opened, *answers(asked, genesis, blocks, at_hand)], 0
    if command == "checkpoint":
        return [f"checkpoint {len(blocks)} {checkpointed(genesis, store, blocks)[-32:].hex()}"], 0
    if command == "marks":
        return [mark for record in records(store)[0] for mark in marks_of(record)], 0
    blocks = [it for it in blocks if it["block"] <= int(options.get("--at", LAST_BLOCK))]
    if "--key" in options:
        return [it for it in placed_writes(blocks) if it["key"] == options["--key"]], 0
    return [standing_of(genesis, blocks)] if "--members" in options else entries_of(blocks), 0


def checkpointed(genesis: dict, store: bytes, blocks: list[dict]) -> bytes:
    """The checkpoint of the chain of a store, all of whose whole records fit."""
    return checkpoint_of(genesis["digest"], blocks, entries_of(blocks), [len(it) + AROUND for it in records(store)[0]])


def checkpoint(words: list[str], folder: pathlib.Path) -> bytes:
    """What the file has that `checkpoint` is to write."""
    genesis, store = read_genesis((folder / words[1]).read_bytes()), (folder / words[2]).read_bytes()
    return checkpointed(genesis, store, chain_of(store, words[1], words[2], genesis, set())[0])


def stated(line: str, folder: pathlib.Path) -> tuple[list[str], int]:
    """What a command line's lines have to be, and its status."""
    words, _, name = line.partition(" < ")
    lines, status = shown(words.split(), folder, asked_in(name, folder))
    return [it if isinstance(it, str) else text_of(it) for it in lines], status


def asked_in(name: str, folder: pathlib.Path) -> list[bytes]:
    """The lines of a standard input. A part of a line is none."""
    return (folder / name).read_bytes().split(b"\n")[:-1] if name else []


def is_shown(line: str, lines: list[str], status: int | None, folder: pathlib.Path) -> bool:
    """Whether the lines of a command are worked out here: it is carried out, and no file is refused. A peer is one that is asked
    questions alone."""
    given, _, name = line.partition(" < ")
    words = given.split()
    if words[0] not in ("show", "state", "marks", "checkpoint", "peer") or status is None or status > 1 or not (folder / words[2]).exists():
        return False
    if words[0] == "peer" and ("--org" in words or not all(it.startswith(b"ask ") for it in asked_in(name, folder))):
        return False
    return not lines or not lines[0].startswith(("refused 8", "refused 703"))
