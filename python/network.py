"""The genesis file of a network that a TOML file describes (docs/INPUT.md, "Network file").

No seed is read here: the program tells the public key of a key file, and it has to read the genesis file that is made.
"""
import dataclasses
import json
import pathlib
import re
import shlex
import subprocess
from collections.abc import Iterable, Iterator
from typing import Any

from program import find
from regtuma.table import MOST, NAMES

# The fields of the file, and those of its modules.
FIELDS = ("orgs", "peers", "seats", "queue", "count", "preferred", "absolute", "reorder", "rules", "chaincodes", "modules", "upgrade")
MODULE_FIELDS = ("module", "profile")
# The greatest number that each of these may be, and what it is where it is left out. The least is 1.
NUMBERS = {"seats": (MOST["seats"], 4), "queue": (MOST["queue"], 64), "count": (MOST["block_transactions"], 512),
           "preferred": (MOST["block_bytes"], 65536), "absolute": (MOST["block_bytes"], 524288)}
USUAL_FUEL = 100000
# The newest rules of a ledger. Rules 1 are those of a genesis file without the field.
NEWEST_RULES = 2
# The profiles of modules, and what an open definition has more than its profile.
PROFILES, USUAL_PROFILE, OPEN = (1, 2), 1, 16
# The bytes of a network file and of a module, at most.
MOST_BYTES, MOST_MODULE_BYTES = 131072, 262144
# What two fields have to be.
MODULE, KEYS = "the name of a module's file", "the name of a key file"
# Why the program refuses a key file.
NO_KEY_FILE = {"703": "cannot be read: see that it is there", "809": "is no key file: ./ledger keygen makes one"}
# The characters of a name that are shown of it.
MOST_SHOWN = 40
# A seed, as it stands in a key file.
SEED = re.compile("[0-9A-Fa-f]{64,}")
# The smallest valid module: its header, and the sections of types, functions, exports and code. `invoke` returns 0.
SMALLEST = "0061736d01000000" "0105016000017f" "03020100" "070a0106696e766f6b650000" "0a06010400" "41000b"
OF_THE_FILE = "; the fields of the file stand above its first table"
# A JSON object, as those who make or check it know its values.
Object = dict[str, Any]


class Mistake(Exception):
    """Why there is no genesis file: the place, and what can be done. What may be a seed is not told."""

    def __init__(self, why: str):
        super().__init__(without_seeds(why))


def without_seeds(text: str) -> str:
    return SEED.sub("..", text)


@dataclasses.dataclass(frozen=True)
class Kind:
    """Tables of the file that have names."""
    field: str
    name: re.Pattern[str]
    name_is: str
    most: int
    fields: tuple[str, ...]
    holds: str


ONE_KEY = "one of key (shared), public and keys (a key file)"
ORGS = Kind("orgs", NAMES["organisation"], "letters, digits and _", MOST["organisations"], ("key", "public", "keys"), ONE_KEY)
CHAINCODES = Kind("chaincodes", NAMES["chaincode"], "lower-case letters, digits, _ and -", MOST["chaincodes"],
                  ("module", "profile", "policy", "fuel"), "module, policy, profile and fuel")


@dataclasses.dataclass(frozen=True)
class Table:
    """A table of the file: the folder of the file, the place that is told of the table, and its fields."""
    folder: pathlib.Path
    place: str
    fields: dict[str, object]

    def mistake(self, why: str) -> Mistake:
        return Mistake(f"{self.place}: {why}")

    def has_only(self, names: tuple[str, ...]) -> None:
        for name in self.fields:
            if name not in names:
                raise self.mistake(f"{shown(name)} is no field here, but {listed(names)} are{hint(name)}")

    def text(self, name: str, what: str) -> str:
        value = self.fields.get(name)
        if not isinstance(value, str) or not value:
            raise self.mistake(f"{name} has to be {what}, in quotes")
        return value

    def path(self, name: str, what: str) -> pathlib.Path:
        value = self.text(name, what)
        if "\0" in value:
            raise self.mistake(f"{name} has to be {what}, and no file's has the character 0")
        return self.folder / value

    def number(self, name: str, most: int, usual: int) -> int:
        value = self.fields.get(name, usual)
        if type(value) is not int or not 1 <= value <= most:
            raise self.mistake(f"{name} has to be a whole number from 1 to {most}; left out, it is {usual}")
        return value

    def truth(self, name: str) -> bool:
        value = self.fields.get(name, False)
        if not isinstance(value, bool):
            raise self.mistake(f"{name} has to be true or false; left out, it is false")
        return value

    def hex(self, name: str, form: str, what: str) -> str:
        """Hex in lower case. What was given is not told, since it may be a secret."""
        value = self.fields.get(name)
        if not isinstance(value, str) or not re.fullmatch(f"(?:[0-9A-Fa-f]{{2}}){form}", value):
            raise self.mistake(f"{name} has to be {what}, in quotes")
        return value.lower()

    def tables(self, kind: Kind) -> dict[str, "Table"]:
        """The tables of a kind by their names, in the order of the file."""
        found = self.fields.get(kind.field)
        if not isinstance(found, dict) or not 1 <= len(found) <= kind.most:
            raise self.mistake(f"there have to be 1 to {kind.most} tables [{kind.field}.NAME]")
        tables = {}
        for name, fields in found.items():
            if not isinstance(fields, dict):
                raise self.mistake(f"{shown(name)} in [{kind.field}] has to be a table with {kind.holds}{hint(name)}")
            if not kind.name.fullmatch(name):
                raise self.mistake(f"{shown(name)} in [{kind.field}] is no name: one has 1 to 32 {kind.name_is}")
            tables[name] = self.within(f"[{kind.field}.{name}]", fields, kind.fields)
        return tables

    def within(self, place: str, fields: dict[str, object], names: tuple[str, ...]) -> "Table":
        """A table of this file that has fields of these names alone."""
        table = Table(self.folder, f"{self.place}, {place}", fields)
        table.has_only(names)
        return table


def shown(name: str) -> str:
    """A name of the file in one short line."""
    name = without_seeds(name)
    short = name if len(name) <= MOST_SHOWN else name[:MOST_SHOWN] + ".."
    return short if short.isprintable() and short.strip() else repr(short)


def quoted(path: pathlib.Path | str) -> str:
    """A file's name as a shell reads it."""
    return shlex.quote(str(path)) if str(path).isprintable() else repr(str(path))


def listed(names: Iterable[str]) -> str:
    *most, last = names
    return f"{', '.join(most)} and {last}"


def hint(name: str) -> str:
    return OF_THE_FILE if name in FIELDS else ""


def genesis_file(file: str) -> str:
    """The text of the genesis file of a network file, or of the standard input for `-`. The program that ./ledger runs reads keys
    and the text."""
    place = "the standard input" if file == "-" else quoted(file)
    network = Table(pathlib.Path(file).absolute().parent, place, parsed(file))
    orgs, rest = described(network)
    program = str(find())
    genesis: Object = {"orgs": with_public_keys(network, orgs, program), **rest}
    number = refusal(program, genesis)
    if number:
        raise blamed(number, network, genesis, program)
    return text_of(genesis)


def text_of(genesis: Object | list[Object]) -> str:
    return json.dumps(genesis, indent=1) + "\n"


def parsed(file: str) -> dict[str, object]:
    """The tables of a TOML file."""
    try:
        import tomllib
    except ModuleNotFoundError as error:
        raise Mistake(f"{quoted(file)} cannot be read by this Python, since 3.11 is the first that reads TOML") from error
    try:
        with open("/dev/stdin" if file == "-" else file, "rb") as source:
            data = source.read(MOST_BYTES + 1)
    except (OSError, ValueError) as error:
        raise Mistake(f"{quoted(file)} cannot be read: {reason(error)}") from error
    if len(data) > MOST_BYTES:
        raise Mistake(f"{quoted(file)} has more than {MOST_BYTES} bytes, as no network file has")
    try:
        return tomllib.loads(data.decode())
    except UnicodeDecodeError as error:
        raise Mistake(f"{quoted(file)} is not UTF-8 at {place(data[:error.start].decode())}: save it as UTF-8") from error
    except tomllib.TOMLDecodeError as error:
        why = str(error).replace("end of document", place(data.decode()))
        raise Mistake(f"{quoted(file)} is no TOML: {why}") from error
    except (ValueError, RecursionError) as error:
        raise Mistake(f"{quoted(file)} has a number of too many digits, or too many brackets inside one another") from error


def place(before: str) -> str:
    """The line and the column behind a text."""
    return f"line {before.count(chr(10)) + 1}, column {len(before.rpartition(chr(10))[2]) + 1}"


def reason(error: Exception) -> str:
    """Why a file cannot be read, or none can have its name."""
    return str(error.strerror) if isinstance(error, OSError) else "there is no such name"


def described(network: Table) -> tuple[list[dict[str, str]], Object]:
    """The organisations, with the key file of each that has one, and the rest of the genesis file, in its order."""
    network.has_only(FIELDS)
    orgs = [organisation(name, table) for name, table in network.tables(ORGS).items()]
    rest = {
        "peers": peers(network, [it["name"] for it in orgs]),
        **{name: network.number(name, most, usual) for name, (most, usual) in NUMBERS.items()},
        "reorder": network.truth("reorder"),
        **rules(network),
        "chaincodes": [chaincode(name, table) for name, table in network.tables(CHAINCODES).items()],
        "modules": [module(it) for it in more_modules(network)],
        "upgrade": network.text("upgrade", "the policy for upgrades"),
    }
    return orgs, rest


def rules(network: Table) -> Object:
    """The field of the ledger's rules, which rules 1 do without."""
    number = network.number("rules", NEWEST_RULES, NEWEST_RULES)
    return {"rules": number} if number > 1 else {}


def organisation(name: str, table: Table) -> dict[str, str]:
    """An organisation, with its shared key, its public key or the name of its key file."""
    if len(table.fields) != 1:
        raise table.mistake(f"there has to be {ONE_KEY}")
    if "key" in table.fields:
        return {"name": name, "key": table.hex("key", "{1,128}", "hex of 1 to 128 bytes")}
    if "public" in table.fields:
        return {"name": name, "public": table.hex("public", "{32}", "hex of 32 bytes, as ./ledger public prints it of a key file")}
    return {"name": name, "keys": str(table.path("keys", KEYS))}


def peers(network: Table, orgs: list[str]) -> list[str]:
    names = network.fields.get("peers", orgs)
    if not isinstance(names, list) or not 1 <= len(names) <= MOST["peers"] or not all(isinstance(it, str) for it in names):
        raise network.mistake(f"peers has to list 1 to {MOST['peers']} names of [orgs]; left out, it is all of them")
    for name in names:
        if name not in orgs:
            raise network.mistake(f"peers has {shown(name)}, which is none of [orgs]: {', '.join(orgs)}")
    return names


def chaincode(name: str, table: Table) -> dict[str, object]:
    made = module(table)
    policy = table.text("policy", "the policy of those who have to endorse")
    fuel = table.number("fuel", MOST["fuel"], USUAL_FUEL)
    return {"name": name, "module": made["module"], "policy": policy, "fuel": fuel, "profile": made["profile"]}


def more_modules(network: Table) -> list[Table]:
    found = network.fields.get("modules", [])
    if not isinstance(found, list) or len(found) > MOST["modules"] or not all(isinstance(it, dict) for it in found):
        raise network.mistake(f"modules has to be up to {MOST['modules']} tables [[modules]] with module and profile")
    return [network.within(f"[[modules]] {number}", fields, MODULE_FIELDS) for number, fields in enumerate(found, 1)]


def module(table: Table) -> dict[str, object]:
    """A module's bytes in hex, and its profile. Of a file that is too long for a module the program gets its beginning."""
    path = table.path("module", MODULE)
    profile = table.number("profile", max(PROFILES), USUAL_PROFILE)
    try:
        with open(path, "rb") as file:
            return {"module": file.read(MOST_MODULE_BYTES + 1).hex(), "profile": profile}
    except (OSError, ValueError) as error:
        raise table.mistake(f"the module {quoted(path)} cannot be read: {reason(error)}") from error


def with_public_keys(network: Table, orgs: list[dict[str, str]], program: str) -> list[dict[str, str]]:
    """The organisations, each with its key. No two have the same public one."""
    tables, made = network.tables(ORGS), []
    owners: dict[str, str] = {}
    for org in orgs:
        if "keys" in org:
            org = {"name": org["name"], "public": public_key(tables[org["name"]], program)}
        owner = owners.setdefault(org["public"], org["name"]) if "public" in org else org["name"]
        if owner != org["name"]:
            raise network.mistake(f"{owner} and {org['name']} in [orgs] have the same public key: ./ledger keygen makes another")
        made.append(org)
    return made


def public_key(table: Table, program: str) -> str:
    """The public key of the seed in an organisation's key file."""
    path = table.path("keys", KEYS)
    said = ask(program, "public", path)
    keys: list[str] = re.findall("public ([0-9a-f]{64})\n", said.out) if said.status == 0 else []
    if len(keys) == 1:
        return keys[0]
    if keys:
        raise table.mistake(f"the key file {quoted(path)} has {len(keys)} seeds: name a file with this organisation's alone")
    why = NO_KEY_FILE.get(said.number, "is not read")
    raise table.mistake(f"the key file {quoted(path)} {why} ({said.number})")


@dataclasses.dataclass(frozen=True)
class Said:
    """How the program ended, and what it printed."""
    status: int
    out: str

    @property
    def number(self) -> str:
        """The number by which it refused, or else its status."""
        found = re.search(r"^refused (\d+)", self.out, re.MULTILINE)
        return found[1] if found else f"status {self.status}"


def ask(program: str, *words: object, text: str = "") -> Said:
    try:
        ran = subprocess.run([program, *map(str, words)], input=text, capture_output=True, text=True, errors="replace")
    except (OSError, ValueError) as error:
        raise Mistake(f"the program does not run: {reason(error)}") from error
    return Said(ran.returncode, ran.stdout)


def refusal(program: str, genesis: Object) -> str:
    """The number by which the program refuses a genesis file, if it does. It reads an empty store, and no file of its own, so that
    shared keys are written to no disk."""
    said = ask(program, "marks", "/dev/stdin", "/dev/null", text=text_of(genesis))
    return said.number if said.status else ""


def blamed(number: str, network: Table, genesis: Object, program: str) -> Mistake:
    """What the program refuses a genesis file for: the first part that it refuses by the same number alone."""
    for table, why, alone in parts(number, network, genesis):
        if refusal(program, alone) == number:
            return table.mistake(f"{why} ({number})")
    return network.mistake(f"the program refuses the genesis file of it ({number}): docs/INPUT.md says what that stands for")


def parts(number: str, network: Table, genesis: Object) -> Iterator[tuple[Table, str, Object]]:
    """What may be refused by this number: its table, what is then wrong, and the smallest genesis file that has it."""
    orgs, chaincodes = genesis["orgs"], list(zip(network.tables(CHAINCODES).values(), genesis["chaincodes"]))
    if number == "803":
        for table, org in zip(network.tables(ORGS).values(), orgs):
            why = "public is no point of the curve, or one of small order: ./ledger public prints a key file's"
            yield table, why, smallest([org])
    if number == "804":
        for table, it in [*chaincodes, *zip(more_modules(network), genesis["modules"])]:
            told = f"./ledger check {quoted(table.path('module', MODULE))} --profile {it['profile']} tells its fault"
            yield table, f"the module is not a valid one of profile {it['profile']}: {told}", smallest(orgs, **module_of(it))
    if number == "805":
        policies = [(table, "policy", it["policy"]) for table, it in chaincodes]
        for table, field, policy in [*policies, (network, "upgrade", genesis["upgrade"])]:
            yield table, wrong_policy(field, policy, [it["name"] for it in orgs]), smallest(orgs, policy=policy)


def module_of(it: Object) -> Object:
    return {name: it[name] for name in MODULE_FIELDS}


def wrong_policy(field: str, policy: str, orgs: list[str]) -> str:
    """What is wrong with a policy that is refused."""
    for name in re.findall("'([^']*)'", policy):
        if name not in orgs:
            return f"{field} names {shown(name)}, which is none of [orgs]: {', '.join(orgs)}"
    return f"{field} is no policy: docs/RULES.md says how one is written, as AND('A', OR('B', 'C'))"


def smallest(orgs: list[dict[str, str]], **fields: object) -> Object:
    """A genesis file with these organisations and a chaincode with these fields, which is else as small as can be."""
    first = orgs[0]["name"]
    policy = f"'{first}'"
    only = {"name": "a", "module": SMALLEST, "policy": policy, "fuel": 1, "profile": 1, **fields}
    numbers = {name: 1 for name in NUMBERS}
    return {"orgs": orgs, "peers": [first], **numbers, "reorder": False, "chaincodes": [only], "modules": [], "upgrade": policy}
