"""Policies (docs/RULES.md, "Endorsements and policies"). Whether a text is one, the program says: here it is one."""
import re
from collections.abc import Iterable

TOKEN = re.compile(r"'[A-Za-z0-9_]+'|[A-Za-z]+|[0-9]+|[(),]")


def is_satisfied(policy: str, orgs: Iterable[str]) -> bool:
    """Whether right tags of these organisations satisfy the policy."""
    return _is_satisfied(TOKEN.findall(policy), set(orgs))


def _is_satisfied(tokens: list[str], orgs: set[str]) -> bool:
    """The same of the policy that these tokens begin with. They are taken away."""
    first = tokens.pop(0)
    if first.startswith("'"):
        return first.strip("'") in orgs
    tokens.pop(0)
    least = 1
    if first == "OutOf":
        least = int(tokens.pop(0))
        tokens.pop(0)
    children = [_is_satisfied(tokens, orgs)]
    while tokens.pop(0) == ",":
        children.append(_is_satisfied(tokens, orgs))
    return sum(children) >= (len(children) if first == "AND" else least)
