"""node/change.py members: the amendment that it makes, what it tells of it, and what it refuses."""
import json
import pathlib
import re
import sys
from typing import Any

from networks import NO_POINT, SMALL_ORDER
from report import Ran, Report
from tree import run_ledger

# How long a command may take, in seconds.
SECONDS = 120
TWO_OF_ALL = "OutOf(2,'Carrier','Depot','Maker','Shop')"
KEPT = [{"name": "Carrier"}, {"name": "Maker"}, {"name": "Shop"}]
# Words, and what is told of what they make.
MISTAKES: list[tuple[Any, ...]] = [
    ((), "that is what stands already"),
    (("--policy", "OutOf(2,'Maker','Carrier','Shop')"), "that is what stands already"),
    (("--remove", "Nobody"), "Nobody is no member"),
    (("--remove", "Shop"), "the policy names Shop, which is none of [orgs]: Carrier, Maker", "--policy"),
    (("--remove", "Maker", "--remove", "Carrier", "--remove", "Shop", "--policy", "'Maker'"), "1 to 16 members"),
    (("--add", "depot.json", "--policy", "OutOf(2,'Depot')"), "the policy is no policy", "--policy"),
    (("--add", "depot.json", "--policy", "OR('Depot','Nobody')"), "the policy names Nobody"),
    (("--add", "maker2.json"), "Maker is a member already: --key replaces its key"),
    (("--key", "depot.json"), "Depot is no member: --add takes it in"),
    (("--add", "same.json"), "two members have one public key"),
    (("--add", "small.json"), "the public key of Depot is no point of the curve, or one of small order"),
    (("--add", "none.json"), "the public key of Depot is no point of the curve, or one of small order"),
    (("--add", "kept.json"), "Depot is none of the genesis file's organisations, whose key it could keep"),
    (("--add", "short.json"), "short.json: the public key of Depot has to be hex of 32 bytes"),
    (("--add", "named.json"), "named.json: A-1 is no name"),
    (("--add", "fields.json"), "fields.json: a member is an object with a name"),
    (("--add", "depot.key"), "depot.key is no JSON"),
    (("--add", "missing"), "missing cannot be read: No such file"),
    (("--to", "older.json"), "older.json was made of serial number 7, and 0 stands"),
    (("--to", "twice.json"), "twice.json: a member stands twice"),
    (("--to", "depot.json"), "depot.json: a membership has the fields members, policy and serial"),
    (("--add", "depot.json", "--policy", "'Depot'", "--keys", "maker2.key"), "LOCK-OUT", "the keys at hand are of no member"),
    (("--add", "depot.json", "--policy", "AND('Depot','Maker')", "--keys", "depot.key"), "LOCK-OUT", "are of Depot"),
    (("--add", "depot.json", "--keys", "depot.json"), "depot.json is not read as a key file (809)"),
]


class Changes:
    """Where amendments are made, over a store without blocks."""

    def __init__(self, report: Report, tree: pathlib.Path, room: pathlib.Path, env: dict[str, str]):
        self.report, self.tree, self.room = report, tree, room / "changes"
        self.env = {**env, "PATH": f"{tree}:{env['PATH']}"}
        self.room.mkdir()
        self.genesis = tree / "examples" / "assets" / "genesis.json"
        (self.room / "empty.store").touch()
        for name, org in [("depot", "Depot"), ("maker2", "Maker")]:
            (self.room / f"{name}.json").write_text(self.run("ledger", "keygen", f"{name}.key", org).out)
        self.depot, self.maker2 = (json.loads((self.room / f"{it}.json").read_text())["public"] for it in ("depot", "maker2"))
        first = json.loads(self.genesis.read_text())["orgs"][0]["public"]
        stands: dict[str, Any] = {"members": KEPT, "policy": "'Shop'", "serial": 0}
        for name, value in [
                ("same", {"name": "Depot", "public": first}), ("small", {"name": "Depot", "public": SMALL_ORDER}),
                ("none", {"name": "Depot", "public": NO_POINT}), ("kept", {"name": "Depot"}),
                ("short", {"name": "Depot", "public": "00"}), ("named", {"name": "A-1"}), ("fields", {"name": "A", "key": "00"}),
                ("older", {**stands, "serial": 7}), ("twice", {**stands, "members": [*KEPT, *KEPT]}), ("to", stands)]:
            (self.room / f"{name}.json").write_text(json.dumps(value))

    def run(self, *command: object) -> Ran:
        return run_ledger(list(command), self.room, SECONDS, self.env)

    def members(self, *words: str) -> Ran:
        return self.run(sys.executable, self.tree / "node/change.py", "members", self.genesis, "empty.store", *words)

    def made(self, words: tuple[str, ...], members: list[dict], policy: str, *told: str) -> None:
        """An amendment that is made, and that the program takes for the next one."""
        ran, what = self.members(*words), f"members {' '.join(words)}"
        line = json.loads(ran.out) if ran.status == 0 else {}
        nonce = line.pop("nonce", "")
        is_made = line == {"members": members, "policy": policy, "serial": 1} and re.fullmatch("[0-9a-f]{32}", nonce) is not None
        self.report.case(what, is_made and all(it in ran.err for it in told), f"{ran.out}{ran.err}\nand it has to tell {told}")
        (self.room / "amend.json").write_text(ran.out)
        keys = self.tree / "examples/assets/example_keys/maker.key"
        agreed = f"sed 's/^/agreed 1 /' amend.json | ledger peer {self.genesis} empty.store --org Maker --keys {keys}"
        answer = self.run("bash", "-c", agreed)
        self.report.case(f"{what}: it is endorsed", answer.out.startswith("height 0\nanswer 1 0 endorsed 80"), answer.out[:200] + answer.err)


def try_changes(report: Report, tree: pathlib.Path, room: pathlib.Path, env: dict[str, str]) -> None:
    at = Changes(report, tree, room, env)
    old = "OutOf(2,'Maker','Carrier','Shop')"
    depot = {"name": "Depot", "public": at.depot}
    four = [{"name": "Carrier"}, depot, {"name": "Maker"}, {"name": "Shop"}]
    at.made(("--add", "depot.json", "--policy", TWO_OF_ALL), four, TWO_OF_ALL, "Depot joins", f"under the policy that stands: {old}")
    at.made(("--add", "depot.json"), four, old, "serial number 0", "serial number 1")
    at.made(("--key", "maker2.json"), [{"name": "Carrier"}, {"name": "Maker", "public": at.maker2}, {"name": "Shop"}], old,
            f"Maker has a new key: public key {at.maker2}")
    at.made(("--remove", "Shop", "--policy", "AND('Maker','Carrier')"), KEPT[:2], "AND('Maker','Carrier')", "Shop leaves",
            "warning: AND('Maker','Carrier') is not met without Maker", "not met without Carrier")
    at.made(("--remove", "Shop", "--remove", "Carrier", "--policy", "'Maker'"), [{"name": "Maker"}], "'Maker'",
            "warning: these members do not meet", "nobody can call assets")
    at.made(("--to", "to.json"), KEPT, "'Shop'", "not met without Shop")
    at.made(("--add", "depot.json", "--policy", "'Depot'", "--keys", "depot.key"), four, "'Depot'", "not met without Depot")
    said = at.members("--add", "depot.json", "--policy", TWO_OF_ALL).err
    report.case("nothing is warned of without a reason", said != "" and "warning" not in said, said)
    for words, *told in MISTAKES:
        ran = at.members(*words)
        last = ran.err.splitlines()[-1:] or [""]
        is_told = ran.status == 1 and not ran.out and "Traceback" not in ran.err and last[0].startswith("regtuma-change: ")
        is_told = is_told and all(it in last[0] for it in told)
        report.case(f"members {' '.join(words)}", is_told, f"status {ran.status}\n{ran.out}{ran.err}\nand it has to tell {told}")
    for words in [(), ("members",), ("members", "--add")]:
        ran = at.run(sys.executable, tree / "node/change.py", *words)
        report.case(f"regtuma-change {words}: its usage", ran.status == 2 and ran.err.startswith("usage: "), ran.err)
