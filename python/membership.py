"""Memberships (docs/RULES.md): the one that stands after a store, the next one, and what speaks against it."""
import dataclasses
import json
import re
from collections.abc import Iterator

from commands import no_chaincode
from network import ORGS, Mistake, Object, ask, quoted, reason, refusal, shown, smallest, wrong_policy
from policies import is_satisfied
from regtuma.wire import Definition, Member, Membership

PUBLIC = re.compile("[0-9A-Fa-f]{64}")


@dataclasses.dataclass(frozen=True)
class Ledger:
    """The genesis file and the store of a ledger, and the program that reads them."""
    program: str
    genesis: str
    store: str

    def stands(self) -> Membership:
        said = ask(self.program, "state", self.genesis, self.store, "--members")
        if said.status:
            raise Mistake(f"`{self.program} state {self.genesis} {self.store} --members` answers: {said.out.strip()}")
        return membership_of(json.loads(said.out), "the program")

    def organisations(self) -> dict[str, Object]:
        """The entries of the genesis file's `orgs`, by their names."""
        return {it["name"]: it for it in parsed(self.genesis)["orgs"]}

    def policies(self) -> Iterator[tuple[str, str]]:
        """The names of the chaincodes, each with its policy."""
        found = {it["name"]: it["policy"] for it in parsed(self.genesis)["chaincodes"]}
        for line in ask(self.program, "state", self.genesis, self.store).out.splitlines():
            entry = json.loads(line)
            if entry["key"].startswith("00") and entry["key"] != "00":
                found[bytes.fromhex(entry["key"][2:]).decode()] = Definition.decode(bytes.fromhex(entry["value"])).policy
        yield from sorted(found.items())

    def unknown(self, chaincode: str) -> str:
        """That there is no such chaincode."""
        return f"{no_chaincode(chaincode, [name for name, _ in self.policies()])} (401)"


def parsed(file: str) -> Object:
    """The JSON object of a file."""
    try:
        with open(file, encoding="utf-8") as source:
            value = json.load(source)
    except OSError as error:
        raise Mistake(f"{quoted(file)} cannot be read: {reason(error)}") from error
    except (ValueError, RecursionError) as error:
        raise Mistake(f"{quoted(file)} is no JSON: {error}") from error
    if not isinstance(value, dict):
        raise Mistake(f"{quoted(file)} is no JSON object")
    return value


def member_of(entry: object, place: str) -> Member:
    """The member that JSON says, as `keygen` prints it."""
    if not isinstance(entry, dict) or not isinstance(entry.get("name"), str) or not set(entry) <= {"name", "public"}:
        raise Mistake(f"{place}: a member is an object with a name and, if it has a key of its own, public")
    name, key = entry["name"], entry.get("public")
    if not ORGS.name.fullmatch(name):
        raise Mistake(f"{place}: {shown(name)} is no name: one has 1 to 32 {ORGS.name_is}")
    if key is not None and not (isinstance(key, str) and PUBLIC.fullmatch(key)):
        raise Mistake(f"{place}: the public key of {name} has to be hex of 32 bytes")
    return Member(name, None if key is None else bytes.fromhex(key))


def membership_of(value: Object, place: str) -> Membership:
    """The one that JSON says, as `state --members` prints it."""
    members, serial, policy = (value.get(it) for it in ("members", "serial", "policy"))
    if not isinstance(members, list) or not isinstance(policy, str) or type(serial) is not int:
        raise Mistake(f"{place}: a membership has the fields members, policy and serial, as `ledger state .. --members` prints it")
    found = [member_of(it, place) for it in members]
    if len({it.name for it in found}) != len(found):
        raise Mistake(f"{place}: a member stands twice")
    return Membership(serial, found, policy)


def check_usable(ledger: Ledger, it: Membership) -> None:
    """Whether a membership can be used. The program is asked, by a genesis file in which its members are the organisations."""
    listed = ledger.organisations()
    if not 1 <= len(it.members) <= ORGS.most:
        raise Mistake(f"there have to be 1 to {ORGS.most} members")
    for member in it.members:
        if member.public is None and member.name not in listed:
            raise Mistake(f"{member.name} is none of the genesis file's organisations, whose key it could keep: name its public key")
    orgs = [listed[member.name] if member.public is None else member.fields() for member in it.members]
    for org in orgs:
        if refusal(ledger.program, smallest([org])) == "803":
            raise Mistake(f"the public key of {org['name']} is no point of the curve, or one of small order")
    number = refusal(ledger.program, {**smallest(orgs), "upgrade": it.policy})
    if number == "805":
        raise Mistake(f"{wrong_policy('the policy', it.policy, list(it.by_name))}: name another one by --policy")
    if number == "806":
        raise Mistake("two members have one public key, so that its owner would count for both")
    if number:
        raise Mistake(f"the program does not take the membership ({number})")


def at_hand(ledger: Ledger, it: Membership, files: list[str]) -> list[str]:
    """The members for whom somebody can endorse that has these key files. Shared keys everybody has, by the genesis file."""
    publics: set[str] = set()
    for file in files:
        said = ask(ledger.program, "public", file)
        if said.status:
            raise Mistake(f"{quoted(file)} is not read as a key file ({said.number})")
        publics.update(re.findall("public ([0-9a-f]{64})", said.out))
    return owners(ledger, it, publics)


def owners(ledger: Ledger, it: Membership, publics: set[str]) -> list[str]:
    """The members for whom somebody can endorse that has the seeds of these public keys."""
    listed = ledger.organisations()
    keys = {member.name: member.fields().get("public") or listed[member.name].get("public") for member in it.members}
    return [name for name, key in keys.items() if key is None or key.lower() in publics]


def needed(it: Membership) -> list[str]:
    """The members without whom the others cannot meet the policy."""
    return [name for name in it.by_name if not is_satisfied(it.policy, it.by_name.keys() - {name})]


def unmet(ledger: Ledger, it: Membership) -> list[tuple[str, str]]:
    """The chaincodes, with their policies, that the members cannot endorse calls of."""
    return [(name, policy) for name, policy in ledger.policies() if not is_satisfied(policy, it.by_name)]
