#!/usr/bin/env python3
"""Transfers an asset of its own COUNT times, one after another, and prints what became of each as JSON. At the end it reads in
several ways whose the asset is: the status is 1 where one answers otherwise.

    traffic.py ASSET COUNT

Nodes and certificates are those that the environment names, as for regtuma. traffic.mjs does the same in JavaScript.
"""
import json
import pathlib
import sys
import time

sys.dont_write_bytecode = True
sys.path.insert(0, str(pathlib.Path(__file__).resolve().parents[1]))
from regtuma.client import Client, Failed, from_environment


def main(words: list[str]) -> int:
    if len(words) != 2:
        print(__doc__, file=sys.stdout if words in (["--help"], ["-h"]) else sys.stderr)
        return 0 if words in (["--help"], ["-h"]) else 2
    asset, count, ledger = words[0], int(words[1]), from_environment(seconds=240)
    ledger.submit("assets", "create", asset, "Maker")
    for number in range(count):
        began = time.monotonic()
        try:
            said = ledger.submit("assets", "transfer", asset, f"owner-{number}", tries=3)
        except Failed as failed:
            said = {"why": str(failed), **failed.said}
        print(json.dumps({**said, "seconds": round(time.monotonic() - began, 3)}), flush=True)
    return 0 if is_read(ledger, asset, f"owner-{count - 1}", count, said) else 1


def is_read(ledger: Client, asset: str, owner: str, count: int, last: dict) -> bool:
    """Whether each way of reading tells what the last transfer made."""
    key = f"assets/asset/{asset}"
    read = (ledger.evaluate("assets", "read", asset).decode(), (ledger.get(key) or b"").decode(), len(ledger.history(key)),
            len(ledger.state(key, f"{key}0")), ledger.status(last["id"]) == last, next(ledger.blocks(1))["block"])
    return read == (owner, owner, count + 1, 1, True, 1)


if __name__ == "__main__":
    sys.exit(main(sys.argv[1:]))
