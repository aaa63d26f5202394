"""Which user of this machine has the other end of a connection on the loopback, as Linux tells it in /proc/net/tcp."""
import ipaddress
import pathlib
from typing import Any

PROC = pathlib.Path("/proc/net")
# The columns of its files, and the inode of a socket that no process has any more: its user is told as 0 then, whoever had it.
LOCAL, REMOTE, USER, INODE, NOBODY = 1, 2, 7, 9, "0"


def owner_of(peer: tuple[Any, ...] | None, own: tuple[Any, ...] | None) -> int | None:
    """The user of the socket at `peer` that is connected to `own`; none where no process has it."""
    if not peer or not own:
        return None
    file = "tcp6" if ":" in peer[0] else "tcp"
    ends = [spelled(peer), spelled(own)]
    try:
        lines = (PROC / file).read_text(encoding="ascii").splitlines()[1:]
    except OSError:
        return None
    for fields in map(str.split, lines):
        if [fields[LOCAL], fields[REMOTE]] == ends:
            return int(fields[USER]) if fields[INODE] != NOBODY else None
    return None


def spelled(place: tuple[Any, ...]) -> str:
    """An address and a port as these files have them: each four bytes of the address turned round."""
    data = ipaddress.ip_address(place[0]).packed
    words = [data[it:it + 4][::-1].hex().upper() for it in range(0, len(data), 4)]
    return f"{''.join(words)}:{place[1]:04X}"
