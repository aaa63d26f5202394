"""What a number of the program stands for, by its own table."""
from regtuma.table import ADVICE, FLAG_MEANINGS, FLAGS, MEANINGS


class NoNumber(Exception):
    """The table has no such number."""


def explained(number: str) -> str:
    """What a number of a refusal or a flag stands for, and what to do about it."""
    if not number.isdecimal():
        raise NoNumber(f"a number is asked for, such as 703, and this is none: {number}")
    # No number of the table has more digits; Python reads no number of thousands.
    asked = int(number) if len(number) <= 6 else -1
    if asked in MEANINGS:
        return f"{asked}: {MEANINGS[asked]}\n  {ADVICE[asked]}\n  (docs/FORMATS.md, Numbers)"
    if asked in FLAGS:
        return f"flag {asked}, {FLAGS[asked]}: {FLAG_MEANINGS[asked]}\n  (docs/RULES.md, Flags)"
    raise NoNumber(f"the program tells no number {number}: docs/FORMATS.md lists them")
