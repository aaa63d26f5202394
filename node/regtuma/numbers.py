"""What a refusal or a flag stands for, in words for those who called."""
import re
from typing import TYPE_CHECKING

from .table import FLAG_MEANINGS, FLAGS, MEANINGS
from .wire import Object

if TYPE_CHECKING:
    from .peer import Peer

POLICY, CONFLICT, PHANTOM, DUPLICATE = 1, 2, 3, 4
# Those of which more is told, by what the transaction has.
EXPLAINED = (POLICY, CONFLICT)
REFUSED = re.compile(r"\brefused (\d+)\b.*")


def in_words(refusal: str) -> Object:
    """A line `refused <number> ..` as an answer."""
    _, number, *rest = refusal.split()
    why = MEANINGS.get(int(number), f"refused {number}")
    return {"refused": int(number), "why": f"{why} ({' '.join(rest)})" if rest else why}


def explained(line: str) -> str:
    """A line, with what its refusal stands for, if it has one."""
    if (found := REFUSED.search(line)) and int(found[1]) in MEANINGS:
        return f"{line}: {MEANINGS[int(found[1])]}"
    return line


def at(version: str | None) -> str:
    return f"at {version}" if version else "absent"


def spelt(key: str) -> str:
    """A key of the state as people read it."""
    return bytes.fromhex(key).decode("utf-8", "backslashreplace")


async def why(peer: "Peer", tx: Object) -> str:
    """Why a transaction of a block has its flag."""
    flag = tx["flag"]
    if flag == POLICY:
        right = {it["org"] for it in tx["endorsements"] if it["right"]}
        wrong = {it["org"] for it in tx["endorsements"]} - right
        told = f"; not right by the key that stood: {', '.join(sorted(wrong))}" if wrong else ""
        return f"the endorsements that are right do not satisfy the policy: {', '.join(sorted(right)) or 'none'}{told}"
    if flag == CONFLICT:
        for read in tx["reads"]:
            entry, _ = await peer.ask_for("get", key=read["key"])
            now = entry and entry["version"]
            if now != read["version"]:
                return f"it read {spelt(read['key'])} {at(read['version'])}, which is {at(now)} now; call again"
    return FLAG_MEANINGS[flag] if flag in (PHANTOM, DUPLICATE) else FLAGS[flag]
