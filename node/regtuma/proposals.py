"""What those who ask a node may spell: proposals, keys, numbers. What is none is refused with words."""
import re
import secrets

from .fields import ORGANISATION
from .table import MOST, NAMES
from .wire import Object

# What the caller of a chaincode may say.
OF_CALL = {"chaincode", "arg", "args", "nonce", "organisations"}
CHAINCODE = NAMES["chaincode"]
DIGITS, NONCE, DIGEST = (re.compile(f"[0-9A-Fa-f]{it}") for it in ("*", "{32}", "{64}"))
POLICY = re.compile("[ -~]{1,%d}" % MOST["policy_bytes"])
MOST_ARG, MOST_KEY, MOST_FUEL, MOST_MEMBERS = (MOST[it] for it in ("value_bytes", "key_bytes", "fuel", "organisations"))
MOST_SERIAL = 2**32 - 1
PROFILES, CLOSED = (1, 2, 17, 18), 2


class Refused(Exception):
    """The answer to a request that is not done, with its status."""

    def __init__(self, status: int, said: Object):
        super().__init__(said.get("why", status))
        self.status, self.said = status, said


def refuse(why: str) -> Refused:
    """A request that has not the form that is asked for."""
    return Refused(400, {"why": why})


def check(passes: bool, why: str) -> None:
    if not passes:
        raise refuse(why)


def matches(pattern: re.Pattern[str], value: object) -> bool:
    return isinstance(value, str) and pattern.fullmatch(value) is not None


def is_hex(value: object) -> bool:
    return isinstance(value, str) and matches(DIGITS, value) and len(value) % 2 == 0


def whole(value: object, least: int, most: int) -> bool:
    return type(value) is int and least <= value <= most


def objects(value: object, name: str, most: int) -> list[Object]:
    """A list of objects."""
    if isinstance(value, list) and 0 < len(value) <= most and all(isinstance(it, dict) for it in value):
        return value
    raise refuse(f"{name} is a list of 1 to {most} objects")


def call_of(body: Object) -> Object:
    """The proposal of a call: `arg` is hex, `args` are texts with a space between, and a nonce is made where none is given."""
    check(body.keys() <= OF_CALL and not {"arg", "args"} <= body.keys(),
          "a call has chaincode, arg (in hex) or args (a list of texts), and may have nonce and organisations")
    arg = body["arg"] if "arg" in body else arg_of(body.get("args", []))
    nonce = body["nonce"] if "nonce" in body else secrets.token_hex(16)
    return checked({"chaincode": body.get("chaincode"), "arg": arg or "-", "nonce": nonce})


def arg_of(args: object) -> str:
    """The argument that is these texts with a space between, in hex."""
    if not (isinstance(args, list) and all(isinstance(it, str) for it in args)):
        raise refuse("args is a list of texts")
    return " ".join(args).encode("utf-8", "surrogatepass").hex()


def checked(proposal: Object) -> Object:
    """A proposal that has the form of one: a call, an upgrade or an amendment."""
    for kind, (fields, check_kind) in KINDS.items():
        if kind in proposal:
            if proposal.keys() != fields:
                raise refuse(f"a proposal with {kind} has exactly the fields {', '.join(sorted(fields))}")
            check(matches(NONCE, proposal["nonce"]), "nonce is hex of 16 bytes")
            check_kind(proposal)
            return proposal
    raise refuse("a proposal has chaincode, upgrade or members")


def check_call(it: Object) -> None:
    check(matches(CHAINCODE, it["chaincode"]), "chaincode is a name of 1 to 32 lower-case letters, digits, _ and -")
    check(it["arg"] == "-" or is_hex(it["arg"]) and 0 < len(it["arg"]) <= 2 * MOST_ARG,
          f"an argument is hex of 1 to {MOST_ARG} bytes, or - for none")


def check_upgrade(it: Object) -> None:
    check(matches(CHAINCODE, it["upgrade"]), "upgrade is a name of 1 to 32 lower-case letters, digits, _ and -")
    check(matches(DIGEST, it["module"]), "module is the digest of one, hex of 32 bytes")
    check(type(it["profile"]) is int and it["profile"] in PROFILES, "profile is 1, 2, 17 or 18")
    check(whole(it["fuel"], 1, MOST_FUEL), f"fuel is a number from 1 to {MOST_FUEL}")
    check(matches(POLICY, it["policy"]), "policy is a text of 1 to 1,024 characters")


def check_amendment(it: Object) -> None:
    for member in objects(it["members"], "members", MOST_MEMBERS):
        check(set(member) <= {"name", "public"} and matches(ORGANISATION, member.get("name")),
              "a member has a name of 1 to 32 letters, digits and _, and may have public")
        check("public" not in member or matches(DIGEST, member["public"]), "public is a public key, hex of 32 bytes")
    check(matches(POLICY, it["policy"]), "policy is a text of 1 to 1,024 characters")
    check(whole(it["serial"], 0, MOST_SERIAL), "serial is a number from 0 on")


# The fields of each kind of proposal, and what looks at them.
KINDS = {"chaincode": ({"chaincode", "arg", "nonce"}, check_call),
         "upgrade": ({"upgrade", "module", "profile", "fuel", "policy", "nonce"}, check_upgrade),
         "members": ({"members", "policy", "serial", "nonce"}, check_amendment)}


def described(proposal: Object, members: Object | None = None) -> str:
    """In words what one agrees to: an upgrade, or an amendment, by what it changes of the members that stand, where these are known."""
    if "upgrade" in proposal:
        kind = "any module at hand" if proposal["profile"] > CLOSED else "a module of the genesis file"
        fuel, policy = f"{proposal['fuel']} units of fuel a call", f"the policy {proposal['policy']}"
        return f"{proposal['upgrade']} gets the module {proposal['module']}, {kind}, {fuel}, and {policy}"
    after = {it["name"]: it.get("public", "") for it in proposal["members"]}
    before = {it["name"]: it.get("public") or "" for it in members["members"]} if members else after
    changes = [f"{it} leaves" for it in before if it not in after]
    changes += [f"{it} joins with the key {after[it] or 'of the genesis file'}" for it in after if it not in before]
    changes += [f"{it} gets the key {after[it] or 'of the genesis file'}" for it in after if it in before and after[it] != before[it]]
    return "; ".join([*changes, f"the members are {', '.join(after)}", f"the policy for changes is {proposal['policy']}"])


def organisations_of(body: Object) -> list[str] | None:
    """Whose endorsements are asked for, where the caller says so."""
    named = body.get("organisations")
    check(named is None or isinstance(named, list) and 0 < len(named) <= 32 and all(matches(ORGANISATION, it) for it in named),
          "organisations is a list of their names")
    return named and list(dict.fromkeys(named))


def bound_of(text: str, name: str) -> str:
    """A key, or the bound of a range, in hex: a text, or hex behind 0x. In the place of bytes that are no text stands U+FFFD."""
    check("\ufffd" not in text, f"{name} is no text in UTF-8: write its bytes as hex behind 0x")
    found = text[2:] if text.startswith("0x") else text.encode("utf-8", "surrogateescape").hex()
    check(is_hex(found) and len(found) <= 2 * MOST_KEY, f"{name} is a text of up to {MOST_KEY} bytes, or hex behind 0x")
    return found


def number_of(text: str, name: str, least: int, most: int) -> int:
    is_short = text.isascii() and text.isdigit() and len(text) <= 10
    check(is_short and least <= int(text) <= most, f"{name} is a whole number from {least} to {most}")
    return int(text)


def seconds_of(text: str, most: float) -> float:
    """A time to wait; a longer one than the longest counts as that."""
    check(re.fullmatch(r"[0-9]{1,6}(\.[0-9]{1,6})?", text) is not None, f"wait is a number of seconds, up to {most:g}")
    return min(most, float(text))
