"""./ledger genesis: the genesis file that it makes of a network in TOML, what it makes of fields that are left out, and what
it refuses."""
import json
import pathlib

from report import Ran, Report
from tree import run_ledger

# How long a command may take, in seconds.
SECONDS = 60
# A network without what may be left out.
SMALL = """upgrade = "'A'"

[orgs]
A.key = "4a65"

[chaincodes.kv]
module = "kv.wasm"
policy = "'A'"
"""
TOP, KEY, FILE, POLICY = SMALL.splitlines()[0], 'A.key = "4a65"', 'module = "kv.wasm"', "policy = \"'A'\""
# A field that may be left out, what it is then, and another value; in the table that stands last, of the chaincode, or above.
USUAL = [("peers", ["A"], ["A", "A"]), ("seats", 4, 64), ("queue", 64, 4096), ("count", 512, 1), ("preferred", 65536, 524288),
         ("absolute", 524288, 1), ("reorder", False, True), ("rules", 2, None), ("modules", [], None)]
USUAL_OF_A_CHAINCODE = [("profile", 1, 2), ("fuel", 100000, 10000000)]
# A point of small order, and what is no point.
SMALL_ORDER, NO_POINT = "01" + 31 * "00", "02" + 31 * "00"
SECRET = 32 * "5e"
# A module of profile 2: what it returns is sign-extended.
EXTEND = "0061736d01000000" "0105016000017f" "03020100" "070a0106696e766f6b650000" "0a07010500" "4100c00b"
# What is put in the place of a text of the small network, and what is then told.
MISTAKES = [
    (TOP, "upgrade =", "no TOML", "line 1, column 10"),
    (POLICY + "\n", "policy = ", "no TOML", "line 8, column 10"),
    (POLICY, POLICY + "\n" + POLICY, "no TOML", "line 9, column"),
    (TOP, "seats = 1" + 5000 * "0", "a number of too many digits"),
    (TOP, "seats = " + 5000 * "[", "brackets"),
    (TOP, "", "network.toml: upgrade has to be"),
    (TOP, "upgrade = 1", "network.toml: upgrade has to be"),
    (TOP, TOP + "\nsize = 1", "size is no field here", "preferred, absolute, reorder"),
    (TOP, TOP + "\nseats = 0", "seats has to be a whole number from 1 to 64"),
    (TOP, TOP + "\nseats = 65", "seats has to be a whole number from 1 to 64"),
    (TOP, TOP + "\nseats = true", "seats has to be a whole number"),
    (TOP, TOP + "\nqueue = 4097", "queue has to be a whole number from 1 to 4096"),
    (TOP, TOP + '\ncount = "1"', "count has to be a whole number from 1 to 512"),
    (TOP, TOP + "\npreferred = 1.0", "preferred has to be a whole number from 1 to 524288"),
    (TOP, TOP + "\nabsolute = -1", "absolute has to be a whole number from 1 to 524288"),
    (TOP, TOP + "\nreorder = 1", "reorder has to be true or false"),
    (TOP, TOP + "\nrules = 0", "rules has to be a whole number from 1 to 2; left out, it is 2"),
    (TOP, TOP + "\nrules = 3", "rules has to be a whole number from 1 to 2; left out, it is 2"),
    (TOP, TOP + "\nrules = true", "rules has to be a whole number from 1 to 2; left out, it is 2"),
    (TOP, TOP + "\npeers = []", "peers has to list 1 to 8 names"),
    (TOP, TOP + '\npeers = "A"', "peers has to list 1 to 8 names"),
    (TOP, TOP + '\npeers = ["A", "B"]', "peers has B, which is none of [orgs]: A"),
    (TOP, TOP + "\nmodules = 1", "modules has to be up to 16 tables [[modules]]"),
    ("[orgs]\n" + KEY, "", "1 to 16 tables [orgs.NAME]"),
    ("[orgs]", "[[orgs]]", "1 to 16 tables [orgs.NAME]"),
    (KEY, "\n".join(f'A{number}.key = "00"' for number in range(17)), "1 to 16 tables [orgs.NAME]"),
    (KEY, KEY + "\n" + "\n".join(f'B{number}.key = "00"' for number in range(8)), "peers has to list 1 to 8"),
    (KEY, 'A = "4a65"', "A in [orgs] has to be a table with one of key (shared), public and keys"),
    (KEY, KEY + "\nseats = 1", "seats in [orgs]", "stand above its first table"),
    (KEY, KEY + '\n"B-1".key = "00"', "B-1 in [orgs] is no name", "letters, digits and _"),
    (KEY, KEY + '\n"\\u0000".key = "00"', "'\\x00' in [orgs] is no name"),
    (KEY, KEY + '\nA.public = "00"', "[orgs.A]: there has to be one of key (shared), public and keys"),
    (KEY, "A = {}", "[orgs.A]: there has to be one of key (shared), public and keys"),
    (KEY, f'A.seed = "{SECRET}"', "[orgs.A]: seed is no field here, but key, public and keys are"),
    (KEY, f'A.keys = "{SECRET}"', "[orgs.A]: the key file", "cannot be read: see that it is there (703)"),
    (KEY, f'A = "{SECRET}"', "A in [orgs] has to be a table"),
    (KEY, f'{SECRET}.key = "00"', ".. in [orgs] is no name"),
    (TOP, f'{TOP}\n{SECRET} = 1', "network.toml: .. is no field here"),
    (TOP, f'{TOP}\n[orgs.{SECRET}]\n[orgs.{SECRET}]', "no TOML", "line 3, column"),
    (KEY, f'A.key = "{SECRET}0"', "[orgs.A]: key has to be hex of 1 to 128 bytes"),
    (KEY, f'A.key = "{129 * "00"}"', "[orgs.A]: key has to be hex of 1 to 128 bytes"),
    (KEY, f'A.public = "{SECRET}00"', "[orgs.A]: public has to be hex of 32 bytes"),
    (KEY, f'A.public = "{SMALL_ORDER}"', "[orgs.A]: public is no point", "small order", "(803)"),
    (KEY, f'{KEY}\nB.public = "{NO_POINT}"', "[orgs.B]: public is no point", "(803)"),
    (KEY, "A.keys = 1", "[orgs.A]: keys has to be the name of a key file"),
    (KEY, 'A.keys = "\\u0000"', "[orgs.A]: keys has to be the name of a key file"),
    (KEY, 'A.keys = "none.key"', "[orgs.A]: the key file", "none.key cannot be read: see that it is there (703)"),
    (KEY, 'A.keys = "kv.wasm"', "[orgs.A]: the key file", "kv.wasm is no key file", "keygen", "(809)"),
    (KEY, 'A.keys = "both.key"', "[orgs.A]: the key file", "both.key has 2 seeds"),
    (KEY, 'A.keys = "one.key"\nB.keys = "one.key"', "A and B in [orgs] have the same public key"),
    ("[chaincodes.kv]", "[chaincodes.KV]", "KV in [chaincodes] is no name", "lower-case letters"),
    ("[chaincodes.kv]", "[chaincodes]", "module in [chaincodes] has to be a table"),
    (FILE, "", "[chaincodes.kv]: module has to be the name of a module's file"),
    (FILE, 'module = "none.wasm"', "[chaincodes.kv]: the module", "none.wasm cannot be read: No such file or directory"),
    (FILE, 'module = "."', "cannot be read: Is a directory"),
    (FILE, 'module = "\\u0000"', "[chaincodes.kv]: module has to be the name of a module's file"),
    (FILE, 'module = "one.key"', "[chaincodes.kv]: the module is not a valid one of profile 1", "one.key --profile 1", "(804)"),
    (FILE, 'module = "/dev/zero"', "/dev/zero --profile 1 tells its fault (804)"),
    (FILE, 'module = "extend.wasm"', "[chaincodes.kv]: the module is not a valid one of profile 1", "(804)"),
    (POLICY, POLICY + "\n[[modules]]\nmodule = \"kv.wasm\"\n[[modules]]\nmodule = \"one.key\"", "[[modules]] 2: the module is not", "(804)"),
    (POLICY, POLICY + "\n[[modules]]\nmodule = \"kv.wasm\"\nfuel = 1", "[[modules]] 1: fuel is no field here, but module and profile are"),
    (POLICY, "", "[chaincodes.kv]: policy has to be"),
    (POLICY, POLICY + "\nfuel = 10000001", "[chaincodes.kv]: fuel has to be a whole number from 1 to 10000000"),
    (POLICY, POLICY + "\nprofile = 3", "[chaincodes.kv]: profile has to be a whole number from 1 to 2"),
    (POLICY, POLICY + "\nfule = 1", "[chaincodes.kv]: fule is no field here, but module, profile, policy and fuel are"),
    (POLICY, POLICY + "\nupgrade = \"'A'\"", "[chaincodes.kv]: upgrade is no field here", "stand above its first table"),
    (POLICY, "policy = \"OR('A', 'B')\"", "[chaincodes.kv]: policy names B, which is none of [orgs]: A (805)"),
    (POLICY, "policy = \"AND('A'\"", "[chaincodes.kv]: policy is no policy", "docs/RULES.md", "(805)"),
    (TOP, "upgrade = \"OutOf(2, 'A')\"", "network.toml: upgrade is no policy", "(805)"),
]


class Networks:
    """Where networks are described, and how genesis files are made of them."""

    def __init__(self, report: Report, tree: pathlib.Path, room: pathlib.Path, env: dict[str, str]):
        self.report, self.tree, self.room, self.env = report, tree, room / "networks", env
        self.room.mkdir()
        (self.room / "kv.wasm").write_bytes((tree / "examples/put_a.wasm").read_bytes())
        (self.room / "extend.wasm").write_bytes(bytes.fromhex(EXTEND))
        self.publics = [json.loads(self.ledger("keygen", it, "A").out)["public"] for it in ("one.key", "two.key")]
        self.seeds = [(self.room / it).read_text() for it in ("one.key", "two.key")]
        (self.room / "both.key").write_text("".join(self.seeds))

    def ledger(self, *words: object, folder: pathlib.Path | None = None) -> Ran:
        """Runs a command, by default in the folder of the networks."""
        return run_ledger([self.tree / "ledger", *words], folder or self.room, SECONDS, self.env)

    def write(self, text: str) -> None:
        (self.room / "network.toml").write_text(text)

    def made(self, what: str, text: str) -> dict:
        """The genesis file that is made of a network, and which the program reads."""
        self.write(text)
        ran = self.ledger("genesis", "network.toml")
        if not self.report.case(what, ran.status == 0 and not ran.err, ran.out + ran.err):
            return {}
        self.report.case(f"{what}: no seed is printed", not any(it.strip() in ran.out for it in self.seeds))
        (self.room / "genesis.json").write_text(ran.out)
        read = self.ledger("marks", "genesis.json", "/dev/null")
        self.report.case(f"{what}: the program reads it", read.status == 0, read.out + read.err)
        return json.loads(ran.out)

    def refused(self, what: str, *told: str, words: tuple[object, ...] = ("network.toml",), lines: int = 1) -> None:
        """A network that is refused in a sentence, or several, which tell this, and no secret."""
        ran = self.ledger("genesis", *words)
        is_told = ran.status == 1 and not ran.out and ran.err.count("\n") == lines and "Traceback" not in ran.err
        is_told = is_told and all(it in ran.err for it in told) and SECRET[:8] not in ran.err
        self.report.case(what, is_told, f"status {ran.status}\n{ran.out}{ran.err}\nand it has to tell {told}")


def small(module: bytes, **fields: object) -> dict:
    """What is made of the small network, with other values of these fields."""
    chaincode = {"name": "kv", "module": module.hex(), "policy": "'A'", "fuel": 100000, "profile": 1}
    made = {name: usual for name, usual, _ in USUAL}
    return {"orgs": [{"name": "A", "key": "4a65"}], **made, "chaincodes": [chaincode], "upgrade": "'A'", **fields}


def try_networks(report: Report, tree: pathlib.Path, room: pathlib.Path, env: dict[str, str]) -> None:
    at = Networks(report, tree, room, env)
    for before, after, *told in MISTAKES:
        at.write(SMALL.replace(before, after, 1).rstrip("\n") + "\n" * (after != "policy = "))
        at.refused(f"{after[-80:]!r} in the place of {before!r}", *told)
    try_files(at)
    try_fields(at)
    try_keys(at)
    try_places(at)


def try_files(at: Networks) -> None:
    """What is no network file, and words that are not one."""
    at.refused("a file that is not there", "none.toml cannot be read: No such file", words=("none.toml",))
    at.refused("a folder", "cannot be read: Is a directory", words=(at.room,))
    at.refused("a file without an end", "has more than 131072 bytes", words=("/dev/zero",))
    at.refused("a key file", "looks like a key file", "no TOML", "line 1, column 65", words=("one.key",), lines=2)
    (at.room / "latin.toml").write_bytes("# 1\n# \u00c4\u00c4".encode() + "\u00c4".encode("latin1"))
    at.refused("a file in Latin 1", "not UTF-8 at line 2, column 5", words=("latin.toml",))
    usages: list[list[str]] = [[], ["network.toml", "network.toml"], ["--no"]]
    for words in usages:
        ran = at.ledger("genesis", *words)
        at.report.case(f"genesis {words}: its usage", ran.status == 2 and ran.err.startswith("usage: ") and not ran.out, ran.err)


def try_fields(at: Networks) -> None:
    """What is left out is as if it stood there, and another value is kept."""
    module = (at.room / "kv.wasm").read_bytes()
    at.report.case("what is left out", at.made("the small network", SMALL) == small(module))
    for name, usual, other in USUAL:
        for value in (usual, other) if other is not None else (usual,):
            made = at.made(f"{name} {value}", f"{name} = {json.dumps(value)}\n{SMALL}")
            at.report.case(f"{name} is {value}", made == small(module, **{name: value}), str(made))
    first = {name: value for name, value in small(module).items() if name != "rules"}
    at.report.case("rules 1 have no field", at.made("rules 1", f"rules = 1\n{SMALL}") == first)
    for name, usual, other in USUAL_OF_A_CHAINCODE:
        for value in (usual, other):
            made = at.made(f"{name} {value}", f"{SMALL}{name} = {value}\n")
            at.report.case(f"{name} is {value}", made.get("chaincodes", [{}])[0].get(name) == value, str(made))
    more = "[[modules]]\nmodule = 'kv.wasm'\n[[modules]]\nmodule = 'extend.wasm'\nprofile = 2\n"
    wanted = [{"module": (at.room / f"{name}.wasm").read_bytes().hex(), "profile": it} for name, it in (("kv", 1), ("extend", 2))]
    at.report.case("more modules are as they stand", at.made("more modules", SMALL + more).get("modules") == wanted)


def try_keys(at: Networks) -> None:
    """Each organisation may have its key in another way. The order is that of the file."""
    one, two = at.publics
    made = at.made("three ways of keys", SMALL.replace(KEY, f'{KEY}\n\n[orgs.C]\nkeys = "one.key"\n\n[orgs.B]\npublic = "{two.upper()}"'))
    wanted = [{"name": "A", "key": "4a65"}, {"name": "C", "public": one}, {"name": "B", "public": two}]
    at.report.case("three ways of keys, in order", made.get("orgs") == wanted and made.get("peers") == ["A", "C", "B"], str(made))


def try_places(at: Networks) -> None:
    """Files are looked for beside the network file, from wherever it is named; the bytes are always the same."""
    folder = at.tree / "examples" / "assets"
    kept = (folder / "genesis.json").read_text()
    for name, where in [("network.toml", folder), (folder / "network.toml", pathlib.Path("/")), ("assets/network.toml", folder.parent)]:
        ran = at.ledger("genesis", name, folder=where)
        is_same = ran.status == 0 and json.loads(ran.out) == json.loads(kept)
        at.report.case(f"the example's genesis file by {name} in {where}", is_same and ran.out == kept, ran.err)
    at.report.case("its seeds are not printed", not any(it in ran.out for it in (folder / "example_keys/all.key").read_text().split()))
