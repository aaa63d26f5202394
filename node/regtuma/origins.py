"""Who used up the id of a call.

An organisation that is asked to endorse a call knows its id, and can put another envelope of this id into its own part of the log
first. The ledger flags that one ENDORSEMENT_POLICY_FAILURE, and the call DUPLICATE_TXID. The node knows in whose part it stood.
"""
import collections
import dataclasses
import hashlib
from collections.abc import Callable, Iterable

from .wire import LONGEST_PROPOSAL, proposal_in

# So many ids that were used up are remembered.
REMEMBERED = 1000
POLICY_FAILURE = "1"


@dataclasses.dataclass(frozen=True)
class Origin:
    """Where the first envelope of a call stands: in an organisation's part of the log; and its SHA-256."""
    organisation: str
    digest: bytes


class Origins:
    def __init__(self, own: str, say: Callable[[str], None]):
        self.own, self.say = own, say
        # The calls that this node has under way, by their ids, as soon as an envelope of them was read; and what the node put itself.
        self.first: dict[str, Origin | None] = {}
        self.put: dict[str, bytes] = {}
        # The calls of which an envelope was read that this node did not put.
        self.foreign: set[str] = set()
        # Which organisation used up an id, and those that ever did since the node began.
        self.used_up: collections.OrderedDict[str, str] = collections.OrderedDict()
        self.blamed: set[str] = set()

    def begin(self, id: str) -> None:
        """A call is under way: others are about to learn its id."""
        self.first.setdefault(id, None)

    def note_put(self, id: str, envelope: str) -> None:
        """The node puts this envelope of a call."""
        if id in self.first:
            self.put[id] = digest_of(envelope.encode())

    def end(self, id: str) -> None:
        """A call is under way no more."""
        self.first.pop(id, None)
        self.put.pop(id, None)
        self.foreign.discard(id)

    def is_own(self, id: str) -> bool:
        """Whether each envelope of a call that was read is the one that this node put."""
        return id in self.put and id not in self.foreign

    def read(self, name: bytes, lines: Iterable[bytes]) -> None:
        """The lines that count of the entry of a name come next in the log."""
        if not self.first:
            return
        organisation = name.partition(b"/")[0].decode("latin-1")
        for line in lines:
            envelope = line.rstrip(b"\n").partition(b" ")[2]
            id = id_in(envelope)
            if id in self.first:
                digest = digest_of(envelope)
                self.first[id] = self.first[id] or Origin(organisation, digest)
                if digest != self.put.get(id):
                    self.foreign.add(id)

    def judge(self, id: str, flag: str) -> None:
        """A transaction of the chain has a flag. If another organisation's envelope came first, and the policy does not accept it, that
        one used up the id. An envelope that is equal to the node's own fails for a reason of its own, as behind a change of key."""
        first = self.first.get(id)
        if flag != POLICY_FAILURE or first is None or first.organisation == self.own or first.digest == self.put.get(id):
            return
        self.used_up[id] = first.organisation
        if len(self.used_up) > REMEMBERED:
            self.used_up.popitem(last=False)
        if first.organisation not in self.blamed:
            self.blamed.add(first.organisation)
            self.say(f"{first.organisation} used up the id of a call of ours: until this node begins again it is asked to endorse"
                     " only if no others satisfy the policy, or if the caller names it")


def id_in(envelope: bytes) -> str:
    """The id of an envelope's transaction; nothing where the line is no envelope."""
    try:
        return hashlib.sha256(proposal_in(bytes.fromhex(envelope[:2 * LONGEST_PROPOSAL].decode()))).hexdigest()
    except (ValueError, IndexError):
        return ""


def digest_of(envelope: bytes) -> bytes:
    return hashlib.sha256(envelope.lower()).digest()
