#!/usr/bin/env python3
"""Writes the hashes of the page's style and script into its content security policy, so that nothing else runs in it.

    examples/page/seal.py [--check]

With --check nothing is written, and the status says whether the hashes are right.
"""
import base64
import hashlib
import pathlib
import re
import sys

TEMPLATE = pathlib.Path(__file__).resolve().parent / "template.html"


def sealed(page: str) -> str:
    """The page with the hashes of what stands in it."""
    for name in ("style", "script"):
        found = re.search(rf"<{name}>(.*?)</{name}>", page, re.DOTALL)
        if found is None:
            sys.exit(f"{TEMPLATE} has no {name}")
        digest = base64.b64encode(hashlib.sha256(found[1].encode()).digest()).decode()
        page = re.sub(rf"{name}-src '[^']*'", f"{name}-src 'sha256-{digest}'", page, count=1)
    return page


def main(words: list[str]) -> int:
    if words not in ([], ["--check"]):
        is_help = words in (["--help"], ["-h"])
        print(__doc__, file=sys.stdout if is_help else sys.stderr)
        return 0 if is_help else 2
    page = TEMPLATE.read_text(encoding="utf-8")
    if words:
        return 0 if sealed(page) == page else 1
    TEMPLATE.write_text(sealed(page), encoding="utf-8")
    return 0


if __name__ == "__main__":
    sys.exit(main(sys.argv[1:]))
