"""What is left of an organisation that has left the ledger: at etcd, which this ends, and in this machine's own files, which it shows.

Files are not written here: whom a machine trusts, and whom a node serves, is changed by its operator.
"""
import pathlib
from urllib.parse import urlsplit

from .config import Config, Reader, owners_of
from .entries import LogError
from .etcd import EtcdLog
from .fields import is_loopback


async def leave_etcd(etcd: EtcdLog, organisation: str) -> list[str]:
    """Takes an organisation's users and members out of etcd, as its root: what was done, in words. Its users are those who may
    write its own part of the log, and a member bears its name in small letters. A member may lie about its name, so that addresses are
    told of those that are left."""
    said = []
    users = await etcd.users()
    for user, roles in list(users.items()):
        if any([await etcd.is_for(it, f"{organisation}/") for it in roles if it != "root"]):
            del users[user]
            await etcd.delete("user", user)
            said.append(f"etcd has no user {user} any more")
            for role in (it for it in roles if not any(it in others for others in users.values())):
                await etcd.delete("role", role)
    members = await etcd.members()
    for id in [it for it, (name, _) in members.items() if name.lower() == organisation.lower()]:
        name, address = members.pop(id)
        await etcd.remove_member(id)
        said.append(f"etcd has no member {name} any more, which was at {address}")
    left = [f"{name} at {address}" for name, address in sorted(members.values())]
    return [*said, f"users of etcd: {', '.join(sorted(users))}; members: {', '.join(left)}"]


def left_here(config: Config, organisation: str) -> list[str]:
    """Where this machine's files have the organisation still."""
    reader = Reader(config.file)
    tables = [("authorities", config.authorities), ("nodes", config.nodes)]
    found = [str(reader.mistake(name, organisation, "has left")) for name, table in tables if organisation in table]
    found += [str(reader.mistake("rights", right, f"has {organisation} still")) for right, names in config.rights.items()
              if any(it.startswith(f"{organisation}/") for it in names)]
    members = pathlib.Path(config.etcd.authorities)
    trusted = (members, members.with_name("callers.pem"), pathlib.Path(config.file).with_name("proxy.ca.pem"))
    return found + [f"{it}: has an authority of {organisation}" for it in trusted if it.is_file() and organisation in owners_of(str(it))]


async def leave(config: Config, organisation: str, root_password: str) -> str:
    """Does what is to be done at etcd, where root's password is given by its file: what was done, and what is left."""
    if config.is_local:
        raise LogError("on one machine there is no etcd: nobody leaves")
    if organisation == config.organisation:
        raise LogError(f"{organisation} is this organisation itself: it leaves by the others")
    done = []
    if root_password:
        if not is_loopback(urlsplit(config.etcd.endpoints[0]).hostname or ""):
            raise LogError("root's password is told to this organisation's own member of etcd alone: let the first of [etcd] endpoints be"
                           " that, on the loopback")
        password = pathlib.Path(root_password).read_text(encoding="utf-8").strip()
        etcd = EtcdLog(config.etcd.endpoints[:1], "root", password, config.etcd_tls())
        try:
            done = await leave_etcd(etcd, organisation)
        finally:
            await etcd.close()
    left = left_here(config, organisation) or [f"nothing of {organisation} is left on this machine"]
    return "\n".join([*done, *left])
