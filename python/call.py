"""`ledger call`: one call, endorsed for those whose keys are at hand, put into a block, and committed to a store.

A peer of the program, `ledger peer`, has the store for itself from the beginning: it says who stands and whom the policy wants,
cuts the block, judges it and writes. Each organisation's peer, which simulates and signs, works on a copy of the store. Where
`ledger dev` runs on the store, its node makes the call.
"""
import collections
import concurrent.futures
import dataclasses
import io
import json
import pathlib
import re
import secrets
import sys
from collections.abc import Iterable
from typing import Any

from commands import Call, Given, Misuse, argument, modules
from debug import NOTHING, RUN, check_name, refusal, simulated
from folder import KEYS, network_at
from membership import Ledger, membership_of, owners
from outcome import effects, verdict
from peer import Beside, Ended, Peer, Refused, answered
from program import find, progress, say
from regtuma import wire
from regtuma.table import FLAG_MEANINGS

OF_ANOTHER = "ask the node (regtuma submit), or copy the file"


@dataclasses.dataclass(frozen=True)
class Asked(Call):
    """What somebody asks for."""
    nonce: str
    # Whether it was given, so that the call may stand in the chain already.
    has_nonce: bool
    keys: str | None
    orgs: tuple[str, ...]

    @property
    def proposal(self) -> dict[str, str]:
        return {"chaincode": self.chaincode, "arg": self.arg or "-", "nonce": self.nonce}


@dataclasses.dataclass(frozen=True)
class Made:
    """The transaction that a call became: its block, the line of it, and whether it stood there before."""
    block: int
    tx: dict[str, Any]
    is_earlier: bool = False


def asked_in(found: Given) -> Asked:
    """What the words of a call ask for."""
    genesis, store, chaincode, *args = found.words
    is_hex = "--hex" in found.options
    nonce = found.option("--nonce")
    if nonce is not None and not re.fullmatch("[0-9A-Fa-f]{32}", nonce):
        raise Misuse("the nonce has to be 16 bytes of hex")
    orgs = found.option("--orgs")
    names = tuple(dict.fromkeys(orgs.split(","))) if orgs is not None else ()
    if "" in names:
        raise Misuse("--orgs has to be names with a comma between them")
    return Asked(genesis, store, modules(found), chaincode, argument(args, is_hex), is_hex,
                 (nonce or secrets.token_hex(16)).lower(), nonce is not None, found.option("--keys"), names)


def main(found: Given) -> int:
    """Does what the words of a call ask for."""
    asked, is_dry = asked_in(found), "--dry-run" in found.options
    if isinstance(sys.stdout, io.TextIOWrapper):
        sys.stdout.reconfigure(encoding="utf-8")
    try:
        program = str(find())
        if is_dry:
            return dry_run(asked, program)
        with network_at(asked.store) as url, progress(lambda seconds: f"calling, {seconds:.0f} s"):
            made = by_node(asked, program, url) if url else by_peer(asked, program)
        return told(made, asked.is_hex)
    except Refused as refused:
        print(refused.line)
        say(f"call: {why(asked, refused)}")
    except Ended as ended:
        say(f"call: {ended}")
    return 1


def why(asked: Asked, refused: Refused) -> str:
    """The sentence for a refusal."""
    if "another process has it" in refused.why:
        return f"{asked.store}: another process has it: a node, a peer or a run; {OF_ANOTHER} (703)"
    return refused.why or refused.line


# ---------------------------------------------------------------- what is done


def dry_run(asked: Asked, program: str) -> int:
    """Prints what the call would do. No file is made or changed."""
    if not pathlib.Path(asked.store).exists():
        say(f"there is no {asked.store}: this is on the empty state")
        asked = dataclasses.replace(asked, store=NOTHING)
    with Beside(program, asked.genesis, asked.store, *asked.modules) as peer:
        said = simulated(peer, asked, program)
    if "refused" in said:
        raise refusal(asked, program, f"refused {said['refused']}")
    tell(effects(said, asked.is_hex))
    say("a dry run: nothing is committed")
    return 0


def by_peer(asked: Asked, program: str) -> Made:
    """Makes the call by a peer, which has the store."""
    is_new = not pathlib.Path(asked.store).exists()
    with Peer(program, asked.genesis, asked.store, *asked.modules) as peer:
        if peer.cut:
            say(f"{asked.store}: {peer.cut} bytes of a part of a record were cut off")
        if is_new:
            say(f"{asked.store} is a new store")
        if asked.has_nonce:
            check_name(peer, asked, program)
            if tx := peer.answer("transaction", id=wire.id_of(asked.proposal)):
                return Made(tx["block"], tx, is_earlier=True)
        number, flag = peer.height + 1, next_flag(peer, asked, program)
        return Made(number, {**peer.answer("block", number=number)["txs"][0], "flag": flag})


def by_node(asked: Asked, program: str, url: str) -> Made:
    """Has the node make the call of a network that runs."""
    from regtuma.client import Client, Failed
    if asked.modules or asked.keys not in (None, str(pathlib.Path(asked.store).parent / KEYS)):
        raise Ended("a network runs there, whose nodes have keys and modules of their own: leave out --keys and --modules")
    node = Client([url])
    organisations = {"organisations": list(asked.orgs)} if asked.orgs else {}
    try:
        height = node.height()
        said = node.outcome({**asked.proposal, **organisations})
        if "block" in said:
            return Made(said["block"], node.block(said["block"])["txs"][said["place"]], said["block"] <= height)
    except Failed as failed:
        said = {"why": str(failed), **failed.said}
    raise refused_by_node(asked, program, said)


def refused_by_node(asked: Asked, program: str, said: dict[str, Any]) -> Refused | Ended:
    """A node's refusal, as a call has it where no network runs, which goes so far that it is refused."""
    number = str(said.get("refused", ""))
    try:
        with Beside(program, asked.genesis, asked.store, *asked.modules) as peer:
            envelope(asked, program, endorsers(peer, asked, program))
    except Refused as refused:
        if number in ("", refused.number):
            return refused
    again = f"{said['why']}; the same call has --nonce {asked.nonce}"
    return Refused(f"refused {number}", f"{said['why']} ({number})") if number else Ended(again)


def told(made: Made, is_hex: bool) -> int:
    """Prints what became of a call. The status: 0 where it is VALID."""
    flag = made.tx["flag"]
    if made.is_earlier:
        say(f"call: it stands in block {made.block} already, and nothing is written")
    tell([*([] if flag else effects(made.tx, is_hex)), verdict(flag, made.block, made.tx["id"])])
    if flag:
        say(f"call: {FLAG_MEANINGS[flag]} (flag {flag})")
    return 1 if flag else 0


def tell(lines: Iterable[str]) -> None:
    for it in lines:
        print(it)
    sys.stdout.flush()


# ---------------------------------------------------------------- what the peers say


def endorsers(peer: Peer, asked: Asked, program: str) -> list[str]:
    """Who is to endorse: those named, or those whose keys are at hand, less the ones that the policy can spare."""
    check_name(peer, asked, program)
    if peer.answer("satisfied", chaincode=asked.chaincode, orgs=[]) is None:
        # There is no definition that can be used: a simulation says why.
        raise refusal(asked, program, f"refused {simulated(peer, asked, program).get('refused', '401')}")
    if asked.orgs:
        return list(asked.orgs)
    ledger = Ledger(program, asked.genesis, asked.store)
    publics = {it.split()[1] for it in answered(program, "public", asked.keys)} if asked.keys else set()
    orgs = owners(ledger, membership_of(peer.answer("members"), "members"), publics)
    if not peer.answer("satisfied", chaincode=asked.chaincode, orgs=orgs):
        raise lacking(asked, ledger, orgs)
    return fewest(peer, asked.chaincode, orgs)


def fewest(peer: Peer, chaincode: str, orgs: list[str]) -> list[str]:
    """Of these, so few that without any of them they would not satisfy the policy. The last are left out first."""
    for org in reversed(orgs[:]):
        rest = [it for it in orgs if it != org]
        if rest and peer.answer("satisfied", chaincode=chaincode, orgs=rest):
            orgs = rest
    return orgs


def lacking(asked: Asked, ledger: Ledger, orgs: list[str]) -> Refused:
    """The keys at hand do not satisfy the policy."""
    policy = dict(ledger.policies())[asked.chaincode]
    had = "name a key file by --keys"
    if asked.keys:
        had = f"the seeds in {asked.keys} are those of {', '.join(orgs) or 'no member'}"
    return Refused("refused 808", f"{asked.chaincode} needs {policy}; {had} (808)")


def envelope(asked: Asked, program: str, orgs: list[str]) -> str:
    """The payload with the endorsements of these organisations, in hex."""
    try:
        with concurrent.futures.ThreadPoolExecutor() as pool:
            said = list(pool.map(lambda org: endorsed(asked, program, org), orgs))
    except Refused as refused:
        raise refusal(asked, program, refused.line) if refused.number in ("401", *RUN) else refused from None
    payloads = {payload for payload, _ in said}
    if len(payloads) > 1:
        raise Ended("the organisations do not simulate alike")
    return wire.envelope(payloads.pop(), [endorsement for _, endorsement in said])


def endorsed(asked: Asked, program: str, org: str) -> tuple[str, str]:
    """The payload, and an organisation's endorsement."""
    keys = ("--keys", asked.keys) if asked.keys else ()
    try:
        with Beside(program, asked.genesis, asked.store, "--org", org, *keys, *asked.modules) as peer:
            return peer.endorsed(asked.proposal)
    except Refused as refused:
        if refused.number == "806":
            raise Refused(refused.line, f"{org}: no member of that name stands behind the store (806)") from None
        if refused.number == "808":
            lacks = f"{asked.keys} lacks the seed of {org}" if asked.keys else f"{org}: no seed is at hand; name its key file by --keys"
            raise Refused(refused.line, f"{lacks} (808)") from None
        raise


def next_flag(peer: Peer, asked: Asked, program: str) -> int:
    """Has the call put into the next block alone, behind all envelopes of the blocks before. The flag that it gets."""
    made = envelope(asked, program, endorsers(peer, asked, program))
    log = [*answered(program, "marks", asked.genesis, asked.store), made, "tick"]
    last, = collections.deque((line for text in log for line in peer.read(text)), maxlen=1)
    word, number, _, flag = last.split()
    if (word, number) != ("committed", str(peer.height + 1)):
        raise Ended(f"ledger peer says: {last}")
    return int(flag)
