"""The checkpoint of a store's chain, worked out by docs/RULES.md (Checkpoints)."""
import hashlib

# The first bytes: what the file is, and the number of its form.
FRONT = b"ckpt\0\0\0\1"


def sized(size: int, data: bytes) -> bytes:
    """Bytes behind their length."""
    return len(data).to_bytes(size, "big") + data


def counted(size: int, items: list[bytes]) -> bytes:
    """Items behind their count."""
    return len(items).to_bytes(size, "big") + b"".join(items)


def number(value: int) -> bytes:
    return value.to_bytes(4, "big")


def version_bytes(version: str) -> bytes:
    return b"".join(number(int(it)) for it in version.split("."))


def entry_bytes(entry: dict) -> bytes:
    """A key of the state, its value and its version."""
    return sized(1, bytes.fromhex(entry["key"])) + sized(2, bytes.fromhex(entry["value"])) + version_bytes(entry["version"])


def member_bytes(member: dict) -> bytes:
    public = b"\1" + bytes.fromhex(member["public"]) if "public" in member else b"\0"
    return sized(1, member["name"].encode()) + public


def membership_bytes(membership: dict) -> bytes:
    members = counted(1, [member_bytes(it) for it in membership["members"]])
    return b"\1" + number(membership["serial"]) + members + sized(2, membership["policy"].encode())


def checkpoint_of(digest: str, blocks: list[dict], entries: list[dict], sizes: list[int]) -> bytes:
    """By the SHA-256 of a genesis file: of blocks as they are shown, the entries of the state behind them, and the sizes of their
    records."""
    hashes = [bytes.fromhex(it["hash"]) for it in blocks]
    amended = [(it["block"], tx["amend"]) for it in blocks for tx in it["txs"] if "amend" in tx and tx["flag"] == 0]
    # The first block of an id counts.
    ids = {tx["id"]: it["block"] for it in reversed(blocks) for tx in it["txs"]}
    body = FRONT + bytes.fromhex(digest) + number(len(blocks)) + (hashes[-1] if hashes else bytes(32))
    body += counted(4, [header + number(size) for header, size in zip(hashes, sizes, strict=True)])
    body += counted(4, [number(block) + sized(2, membership_bytes(it)) for block, it in amended])
    body += counted(8, [entry_bytes(it) for it in entries])
    body += counted(8, [bytes.fromhex(it) + number(ids[it]) for it in sorted(ids)])
    return body + hashlib.sha256(body).digest()
