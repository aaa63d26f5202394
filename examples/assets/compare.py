#!/usr/bin/env python3
"""Runs the example with another module in the register's place, and tells whether that changes anything.

    examples/assets/compare.py MODULE [PROFILE]

The events are run by ./ledger with genesis.json and with a copy of it, in which the first chaincode has this module, and
this profile if one is named. The lines of both runs have to be the same: ids of transactions, flags, state and audit.
"""
import json
import pathlib
import subprocess
import sys
import tempfile

HERE = pathlib.Path(__file__).resolve().parent
LEDGER = HERE.parent.parent / "ledger"


def run(genesis: pathlib.Path) -> list[str]:
    """The lines that the events print with this genesis file."""
    keys = HERE / "example_keys" / "all.key"
    command: list[str | pathlib.Path] = [LEDGER, "run", genesis, HERE / "events.jsonl", "--keys", keys]
    return subprocess.run(command, stdout=subprocess.PIPE, text=True).stdout.splitlines()


def main(words: list[str]) -> int:
    if not words or words[0] in ("--help", "-h") or words[1:] not in ([], ["1"], ["2"]):
        is_help = words in (["--help"], ["-h"])
        print(__doc__, file=sys.stdout if is_help else sys.stderr)
        return 0 if is_help else 2
    genesis = json.loads((HERE / "genesis.json").read_text())
    chaincode = genesis["chaincodes"][0]
    try:
        chaincode["module"] = pathlib.Path(words[0]).read_bytes().hex()
    except OSError as error:
        print(f"compare.py: {words[0]} cannot be read: {error.strerror}", file=sys.stderr)
        return 1
    if words[1:]:
        chaincode["profile"] = int(words[1])
    with tempfile.TemporaryDirectory() as room:
        other = pathlib.Path(room) / "genesis.json"
        other.write_text(json.dumps(genesis))
        before, after = run(HERE / "genesis.json"), run(other)
    for number, (ours, theirs) in enumerate(zip(before, after), 1):
        if ours != theirs:
            print(f"line {number} was    {ours}\nline {number} became {theirs}")
            return 1
    if len(before) != len(after) or not before:
        print(f"{len(before)} lines became {len(after)}")
        return 1
    print(f"the same {len(before)} lines, the last of which is: {before[-1]}")
    return 0


if __name__ == "__main__":
    sys.exit(main(sys.argv[1:]))
