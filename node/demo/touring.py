"""What clients of the demo do, and what they are answered: calls, reads, rights, races, and what a node refuses."""
import collections
import json
import subprocess
import threading
import urllib.error
import urllib.request

# This comes first: it says where the node's modules lie.
from world import CARRIER, MAKER, ORGS, PAGE, ROOT, SECOND, SHOP, World, Wrong, expect, wait_until
from regtuma.client import Failed, NoAnswer, call_of

VALID, FORGED, CONFLICT = 0, 1, 2
JSON = {"Content-Type": "application/json"}
# How many calls one request has, beside one that is refused: few, as the unproved program is slow.
SEVERAL = 4


def submit(world: World, org: str, *words: str, orgs: list[str] | None = None) -> dict:
    """What becomes of a call of the register, refused or not."""
    try:
        return world.client(org).submit("assets", *words, organisations=orgs)
    except Failed as failed:
        return {"why": str(failed), **failed.said}


def call(world: World) -> str:
    """By the command line: a call, a read at another node, and what is refused."""
    status, said = world.regtuma(MAKER, "submit", "assets", "create", "pallet-7", MAKER)
    expect("the first call", (status, said.split(",")[0]), (0, "VALID"))
    expect("a read at another node", world.regtuma(SHOP, "evaluate", "assets", "read", "pallet-7"), (0, MAKER))
    expect("a key", world.regtuma(MAKER, "get", "assets/asset/pallet-7"), (0, MAKER))
    status, refused = world.regtuma(MAKER, "submit", "assets", "create", "pallet-7", "Thief")
    expect("what the chaincode refuses", (status, refused.split(":")[0]), (1, "refused 404"))
    alone = submit(world, MAKER, "transfer", "pallet-7", SHOP, orgs=[MAKER])
    expect("a call with one endorsement", alone.get("flag"), FORGED)
    return f"a call: {said}; one that the chaincode refuses: {refused}; one with a single endorsement: {alone['why']}"


def command_line(world: World) -> str:
    """Each task of the command line that only reads."""
    id_, key = world.ask(MAKER, "/blocks/1")["txs"][0]["id"], "assets/asset/pallet-7"
    for words, told in [(("state", "assets/asset/"), f"{key} 1.0 Maker"), (("history", key), f"1.0 Maker {id_}"),
                        (("status", id_), "VALID, block 1, place 0"), (("block", 1), f'"id": "{id_}"'), (("height",), ""),
                        (("health",), "Maker has "), (("members",), "serial number 0, policy")]:
        status, said = world.regtuma(MAKER, *words)
        expect(f"regtuma {words[0]}, which says {said}", (status, told in said), (0, True))
    expect("no such key", world.regtuma(MAKER, "get", "none"), (1, "the state has no key none"))
    expect("what was agreed to", world.regtuma(MAKER, "agreed", name="operator"), (0, "nothing was agreed to"))
    return "each task of the command line answers"


def in_javascript(world: World) -> str:
    """The application in JavaScript, twice: what it says."""
    words = ["node", ROOT / "examples" / "node" / "transfer.mjs"]
    status, done = world.run_client([*words, "pallet-7", SHOP], MAKER)
    expect("the application", (status, done.split(":")[0]), (0, "flag 0"))
    status, why = world.run_client([*words, "pallet-8", SHOP], MAKER)
    expect("the application with no such pallet", (status, why.split(":")[0]), (1, "flag none"))
    return f"in JavaScript: {done}; {why}"


def rights(world: World) -> str:
    """Who has no right, a certificate of another organisation's authority, or none, is refused."""
    for what, org, name, node, path, right in [("a reader that submits", SHOP, "reader", SHOP, None, "submit"),
                                               ("a client of another organisation", SHOP, "alice", MAKER, "/height", "read")]:
        try:
            client = world.client(org, name, (node,))
            client.ask("GET", path) if path else client.submit("assets", "create", "no", SHOP)
            raise Wrong(f"{what} was let in")
        except Failed as failed:
            expect(what, str(failed), f"{org}/{name} may not {right}")
    world.certs("client", world.room(SHOP), MAKER, "mallory")
    try:
        world.client(SHOP, "mallory", (MAKER,), seconds=2).height()
        raise Wrong("a certificate that another organisation's authority signed was let in")
    except Failed as failed:
        forged = str(failed)
    bare = subprocess.run(["curl", "-s", "--cacert", world.authority(MAKER), f"{world.url(MAKER)}/height"], stdout=subprocess.PIPE)
    expect("who has no certificate", (bare.returncode != 0, bare.stdout), (True, b""))
    return f"who has no right or no certificate is refused; of one for Maker/mallory that the Shop's authority signed: {forged}"


def post(world: World, org: str, path: str, body: bytes, headers: dict[str, str]) -> tuple[int, dict]:
    """The status and the answer to a body that no client library sends."""
    request = urllib.request.Request(world.url(org) + path, body, headers)
    try:
        with urllib.request.urlopen(request, timeout=30, context=world.tls(org)) as answer:
            return answer.status, json.loads(answer.read())
    except urllib.error.HTTPError as error:
        return error.code, json.loads(error.read())


def bad_requests(world: World) -> str:
    """What has not the form is answered, and nothing ends."""
    call_ = json.dumps({"chaincode": "assets", "arg": ""}).encode()
    status, said = post(world, MAKER, "/transactions", call_, {"Content-Type": "text/plain"})
    expect("what a foreign page can make a browser send", status, 415)
    for body in (b"", b"{", b"[]", b"7", b'{"chaincode":7,"arg":"00"}', b'{"chaincode":"assets","arg":"0"}', b'{"arg":"00"}',
                 b'{"chaincode":"assets","arg":"00","nonce":"00"}', b'{"calls":[7]}', b'{"calls":{}}', b"\xff" * 9):
        status, said = post(world, MAKER, "/transactions", body, JSON)
        expect(f"the body {body!r}", (status, isinstance(said.get("why"), str)), (400, True))
    expect("a body that is too long", post(world, MAKER, "/transactions", b" " * (1 << 24), JSON)[0], 413)
    host = json.loads(world.read(MAKER, "/height", Host="evil.example"))
    expect("the page's listener by another name", list(host), ["why"])
    expect("the node is well", world.ask(MAKER, "/healthz").get("ok"), True)
    return "bodies of another form are answered 400, of another type 415, too long ones 413"


def reads(world: World) -> str:
    """Each read of the API, once."""
    block = world.ask(MAKER, "/blocks/1")
    tx, key = block["txs"][0], "assets%2Fasset%2Fpallet-7"
    height = world.same_height(*ORGS)
    expect("/setting", [it["name"] if isinstance(it, dict) else it for it in world.ask(SHOP, "/setting")["orgs"]], list(ORGS))
    expect("/members", world.ask(SHOP, "/members")["serial"], 0)
    expect("/blocks/1", (block["block"], tx["flag"]), (1, VALID))
    lines = world.read(MAKER, f"/blocks?from=1&to={height}").splitlines()
    expect("/blocks", [json.loads(it)["block"] for it in lines], list(range(1, height + 1)))
    expect("/blocks of none", list(world.ask(MAKER, "/blocks/9999")), ["why", "height"])
    expect("/state/KEY", world.ask(SHOP, f"/state/{key}?height={height}")["value"], SHOP.encode().hex())
    expect("/state", len(world.ask(MAKER, "/state?start=assets/asset/&end=0xff")["entries"]), 1)
    expect("/history", world.ask(MAKER, f"/history/{key}")[0]["id"], tx["id"])
    expect("/transactions/ID", world.ask(MAKER, f"/transactions/{tx['id']}")["valid"], True)
    expect("/transactions of none", world.ask(MAKER, f"/transactions/{'0' * 64}?wait=0.2")["pending"], True)
    stream = subprocess.run(["curl", "-s", "--max-time", "1", "-H", "Last-Event-ID: 1",
                             f"http://{world.address[MAKER]}:{PAGE}/events"], stdout=subprocess.PIPE, text=True).stdout
    expect("/events behind block 1", [it for it in stream.splitlines() if it.startswith("id")][:1], ["id: 2"])
    metrics = world.read(MAKER, "/metrics")
    expect("/metrics", f"regtuma_height {height}.0" in metrics, True)
    expect("/", "<!doctype html>" in world.read(MAKER, "/").lower(), True)
    return f"each read of the API answers, at {height} blocks"


def race(world: World) -> str:
    """Three transfers of one pallet at once, at three nodes: one is VALID at least, others conflict."""
    results: list[dict] = []
    threads = [threading.Thread(target=lambda org=org: results.append(submit(world, org, "transfer", "pallet-7", org))) for org in ORGS]
    for it in threads:
        it.start()
    for it in threads:
        it.join()
    flags = sorted(it.get("flag", -1) for it in results)
    expect("a race has a winner, and conflicts", (flags[0], set(flags) <= {VALID, CONFLICT}), (VALID, True))
    again = world.client(SHOP).submit("assets", "transfer", "pallet-7", MAKER, tries=9)
    words = next((it["why"] for it in results if it.get("flag") == CONFLICT), "no conflict")
    return f"three transfers of one pallet at once: flags {flags}, {words}; made anew, flag {again['flag']}"


def once(world: World) -> str:
    """One call is asked of three nodes at once, and the client of one is killed: it is one transaction."""
    call_ = json.dumps({"chaincode": "assets", "arg": b"create once Maker".hex(), "nonce": "0f" * 16}).encode()
    room = world.room(MAKER)
    certificate = ["--cacert", world.authority(MAKER), "--cert", room / "alice.pem", "--key", room / "alice.key"]
    killed = world.start("client", "curl", "-s", "--max-time", 60, *certificate, "-H", "Content-Type: application/json",
                         "-d", call_.decode(), f"{world.url(MAKER)}/transactions")
    said: dict[str, dict] = {}
    threads = [threading.Thread(target=lambda org=org: said.update({org: post(world, org, "/transactions", call_, JSON)[1]}))
               for org in (CARRIER, SHOP)]
    for it in threads:
        it.start()
    killed.kill()
    for it in threads:
        it.join()
    expect("one call at two nodes", (said[CARRIER], said[SHOP]["flag"]), (said[SHOP], VALID))
    world.processes.pop("client").wait()
    again = world.client(MAKER).submit("assets", "create", "once", MAKER, nonce="0f" * 16)
    expect("the same call again", again, said[SHOP])
    height, id_ = world.same_height(*ORGS), again["id"]
    blocks = [world.ask(MAKER, f"/blocks/{number}") for number in range(1, height + 1)]
    flags = [tx["flag"] for block in blocks for tx in block["txs"] if tx["id"] == id_]
    expect("it counts once", flags.count(VALID), 1)
    return f"one call asked of three nodes at once, a client killed: flags {flags} in the chain, and all are told it is VALID"


def several(world: World) -> str:
    """Several calls in one request: each has its own answer. One has a name that would speak to a terminal."""
    names = [*(f"many-{number}" for number in range(1, SEVERAL)), "many-\x1b[2J"]
    calls = [call_of("assets", ["create", it, MAKER]) for it in names] + [call_of("assets", ["nothing"])]
    answers = world.client(MAKER).submit_all(calls)
    counts = collections.Counter("VALID" if it.get("valid") else f"refused {it.get('refused')}" for it in answers)
    expect("calls of one request", counts["VALID"], SEVERAL)
    _, said = world.regtuma(MAKER, "state", "assets/asset/many-", "assets/asset/many-~")
    expect("names are told as text", ("\x1b" in said, "many-\\x1b[2J" in said), (False, True))
    return f"{len(calls)} calls in one request: {', '.join(f'{count} {what}' for what, count in counts.items())}"


def approve(world: World) -> str:
    """The Shop endorses no transfer of gold that others ask for."""
    approver = world.room(SHOP) / "approve.py"
    approver.write_text("""\
import json, sys
for line in sys.stdin:
    call = json.loads(line)
    is_gold = b" gold" in bytes.fromhex(call.get("arg", "-").strip("-")) and not call["asker"].startswith("Shop/")
    print("the Shop's gold stays with the Shop" if is_gold else "yes", flush=True)
""")
    world.more[SHOP] = [f'approver = ["/usr/bin/python3", "{approver}"]']
    world.restart(SHOP)
    expect("the Shop's own call", submit(world, SHOP, "create", "gold", SHOP).get("flag"), VALID)
    wait_until("the Maker has it", lambda: world.client(MAKER).get("assets/asset/gold") is not None)
    denied = submit(world, MAKER, "transfer", "gold", MAKER, orgs=[MAKER, SHOP])
    expect("a call that is not approved", "the Shop's gold stays with the Shop" in denied["why"], True)
    expect("another call", submit(world, MAKER, "transfer", "pallet-7", CARRIER, orgs=[MAKER, SHOP]).get("flag"), VALID)
    return f"an approver: {denied['why']}; another call goes through"


def no_node(world: World) -> str:
    """A client whose node is not there is told so."""
    try:
        world.client(MAKER, nodes=(SECOND,), seconds=1).height()
        raise Wrong("a node that is not there answered")
    except NoAnswer as error:
        return str(error)


STEPS = (call, command_line, in_javascript, rights, bad_requests, reads, race, once, several, approve, no_node)
