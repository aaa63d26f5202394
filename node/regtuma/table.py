"""What the program's numbers and flags stand for, and how large values may be, as `ledger version --table` says it.

docs/tables writes table.json from that.
"""
import json
import pathlib
import re
from typing import Any

_TABLE: dict[str, list[dict[str, Any]]] = json.loads(pathlib.Path(__file__).with_name("table.json").read_text(encoding="ascii"))
# What a number of a refusal stands for, and what to do about it.
MEANINGS: dict[int, str] = {it["number"]: it["meaning"] for it in _TABLE["numbers"]}
ADVICE: dict[int, str] = {it["number"]: it["advice"] for it in _TABLE["numbers"]}
# The names of flags, and what is so of a transaction that has one.
FLAGS: dict[int, str] = {it["number"]: it["name"] for it in _TABLE["flags"]}
FLAG_MEANINGS: dict[int, str] = {it["number"]: it["meaning"] for it in _TABLE["flags"]}
# How an organisation and a chaincode may be called.
NAMES = {it["of"]: re.compile(f"[{it['characters']}]{{{it['least']},{it['greatest']}}}") for it in _TABLE["names"]}
# The greatest number of each limit.
MOST: dict[str, int] = {it["name"]: it["greatest"] for it in _TABLE["limits"]}
