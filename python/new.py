"""`ledger new`: makes the folder of a network, with all that a call needs."""
import json
import pathlib
import re
import shutil
import tempfile

import keys
from folder import GENESIS, KEY, KEYS, NETWORK
from modules import module
from network import CHAINCODES, Mistake, genesis_file, quoted, reason
from program import ROOT, find

# What a network has where nothing else is asked for: the register of pallets.
EXAMPLE = {"assets": str(ROOT / "examples" / "chaincode" / "asset_register.wasm")}
EXAMPLE_POLICY = "OutOf(2, 'Maker', 'Carrier', 'Shop')"
FUEL = 1000000
ABOUT = """\
# A network that `ledger new` made. Until its chain begins it may be changed:
#     ledger genesis network.toml > genesis.json
"""


def make(folder: pathlib.Path, chaincodes: dict[str, str], policies: list[str]) -> str:
    """Makes the folder, of chaincodes by the files of their modules, and their policies. What there is then, in words."""
    if folder.exists():
        what = "has a network already" if (folder / GENESIS).exists() else "is there already"
        raise Mistake(f"{quoted(folder)} {what}: name another folder")
    chaincodes = chaincodes or EXAMPLE
    policies = policies * len(chaincodes) if len(policies) == 1 else policies or [EXAMPLE_POLICY] * len(chaincodes)
    try:
        room = pathlib.Path(tempfile.mkdtemp(prefix=f".{folder.name}-", dir=folder.absolute().parent))
    except OSError as error:
        raise Mistake(f"{quoted(folder)} cannot be made: {reason(error)}") from error
    try:
        fill(room, chaincodes, policies)
        room.rename(folder)
    except Mistake as mistake:
        raise Mistake(str(mistake).replace(str(room), str(folder))) from None
    finally:
        shutil.rmtree(room, ignore_errors=True)
    return ", ".join(f"{name} by {policy}" for name, policy in zip(chaincodes, policies))


def fill(room: pathlib.Path, chaincodes: dict[str, str], policies: list[str]) -> None:
    """Makes the files of a network in a folder that its owner alone can read."""
    program = str(find())
    for name, file in chaincodes.items():
        if not CHAINCODES.name.fullmatch(name):
            raise Mistake(f"{name} is no name of a chaincode: one has 1 to 32 {CHAINCODES.name_is}")
        made = module(file, 1, program)
        (room / f"{name}.wasm").write_bytes(bytes.fromhex(str(made["module"])))
    orgs = organisations(policies)
    for org in orgs:
        (room / org).mkdir(mode=0o700)
        keys.keygen(str(room / org / KEY), org, program=program)
    keys.write_new(str(room / KEYS), "".join((room / org / KEY).read_text(encoding="ascii") for org in orgs))
    (room / NETWORK).write_text(described(orgs, dict(zip(chaincodes, policies))), encoding="utf-8")
    (room / GENESIS).write_text(genesis_file(str(room / NETWORK)), encoding="ascii")


def organisations(policies: list[str]) -> list[str]:
    """Those that policies name, in their order."""
    found = list(dict.fromkeys(re.findall(r"'([A-Za-z0-9_]{1,32})'", " ".join(policies))))
    if not found:
        raise Mistake(f"the policy {policies[0]} names nobody: one is as AND('Buyer', 'Seller')")
    return found


def described(orgs: list[str], policies: dict[str, str]) -> str:
    """The network file of these organisations, and of chaincodes with these policies."""
    upgrade = f"AND({', '.join(map(repr, orgs))})"
    lines = [ABOUT, f"upgrade = {text(upgrade)}", "", "[orgs]", *(f'{it}.keys = "{it}/{KEY}"' for it in orgs)]
    for name, policy in policies.items():
        lines += ["", f"[chaincodes.{name}]", f'module = "{name}.wasm"', f"policy = {text(policy)}", f"fuel = {FUEL}"]
    return "\n".join(lines) + "\n"


def text(value: str) -> str:
    """A text as TOML has it."""
    return json.dumps(value, ensure_ascii=False)
