"""The audit of the organisation's store.

    regtuma-audit node.toml

audits the store that the configuration names, with its genesis file and modules, and prints what `ledger audit` prints. It only
reads, and may run beside the node, which may be writing a block: a store that ends inside a record is audited up to it. The status
is 0 where the audit agrees, 1 where it does not, or cannot be done, and 2 where the configuration has a mistake.
"""
import subprocess
import sys

from . import config as configuration
from .config import Ledger, Mistake

AGREES, TORN = "audit agrees", "refused 701"


def audited(ledger: Ledger) -> list[str]:
    """The lines of the audit."""
    modules = ["--modules", ledger.modules] if ledger.modules else []
    command = [ledger.program, "audit", ledger.genesis, ledger.store, *modules]
    return subprocess.run(command, stdin=subprocess.DEVNULL, stdout=subprocess.PIPE, text=True).stdout.splitlines()


def agrees(lines: list[str]) -> bool:
    """Whether the audit of all whole records agrees."""
    whole = lines[:-1] if lines[-1:] == [TORN] else lines
    return whole[-1:] == [AGREES]


def main(words: list[str]) -> int:
    if words in (["--help"], ["-h"]):
        print(__doc__)
        return 0
    if len(words) != 1:
        print(__doc__, file=sys.stderr)
        return 2
    try:
        lines = audited(configuration.read(words[0]).ledger)
    except Mistake as mistake:
        print(f"regtuma-audit: {mistake}", file=sys.stderr)
        return 2
    except OSError as error:
        print(f"regtuma-audit: the program cannot be run: {error.strerror}", file=sys.stderr)
        return 1
    print("\n".join(lines))
    return 0 if agrees(lines) else 1


if __name__ == "__main__":
    sys.exit(main(sys.argv[1:]))
