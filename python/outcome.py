"""What a call did, in lines: its result, its writes, and the verdict."""
import re
from collections.abc import Iterator, Mapping
from typing import Any

from regtuma.table import FLAGS

# Characters that end a line, move the cursor or turn the order of others.
CONTROL = re.compile("[\0-\x1f\x7f-\x9f\u2028-\u202e\u2066-\u2069]")


def shown(data: bytes, is_last: bool = True) -> str:
    """Bytes as a text; as hex behind 0x where they are none that can be read back. Of several texts in a line the last may have
    spaces."""
    if not data:
        return "-"
    try:
        text = data.decode()
    except UnicodeDecodeError:
        return f"0x{data.hex()}"
    is_text = not CONTROL.search(text) and (is_last or " " not in text) and not text.startswith("0x") and text != "-"
    return text if is_text else f"0x{data.hex()}"


def results(data: bytes) -> list[bytes]:
    """The lines of a result that is a text; any other is one."""
    lines = data.removesuffix(b"\n").split(b"\n")
    return lines if all(shown(it)[:2] != "0x" for it in lines) else [data]


def effects(done: Mapping[str, Any], is_hex: bool) -> Iterator[str]:
    """The result of what a call did, where there is one, and the writes."""
    if is_hex:
        for it in [done["result"]] if done["result"] else []:
            yield f"result {it}"
        for it in done["writes"]:
            yield f"write {it['key']} " + ("delete" if it["value"] is None else f"put {it['value'] or '-'}")
        return
    for line in results(bytes.fromhex(done["result"])) if done["result"] else []:
        yield f"result {shown(line)}"
    for it in done["writes"]:
        key = shown(bytes.fromhex(it["key"]), is_last=False)
        yield f"write {key} " + ("delete" if it["value"] is None else f"put {shown(bytes.fromhex(it['value']))}")


def verdict(flag: int, block: int, id: str) -> str:
    """The last line of a call."""
    return f"{FLAGS[flag]} in block {block}, tx {id}"
