#!/usr/bin/env python3
"""./ledger peer: its answers on random chains are what `show`, `state` and `sim` print, also where a log makes the chain longer.

    test/questions.py CHAINS

asks about so many chains, every second of which is under rules 2. They are those of the page's test (examples/page/odd.py): odd
calls, upgrades and amendments, of which many are refused.
"""
import json
import os
import pathlib
import re
import subprocess
import sys
import tempfile
from collections.abc import Iterator

from report import Report, run

# How many chains the documents' test asks about, and of how many rounds each is made.
CHAINS, ROUNDS = 3, 2
SECONDS = 120
# Lines that spell no question.
BAD = [
    "", "{}", "[]", '{"ask":"none"}', '{"ask":"block"}', '{"ask":"block","number":0}', '{"ask":"block","number":4000000001}',
    '{"ask":"block","number":1,"more":1}', '{"ask":"get","key":""}',
    '{"ask":"get","key":"0"}', '{"ask":"get","key":"' + "00" * 65 + '"}', '{"ask":"transaction","id":"00"}',
    '{"ask":"history","key":"61","from":1}', '{"ask":"history","key":"61","blocks":1}',
    '{"ask":"history","key":"61","from":0,"blocks":1}', '{"ask":"history","key":"61","from":1,"blocks":1001}',
    '{"ask":"range","start":"","end":"","limit":0}', '{"ask":"range","start":"","end":"","limit":1001}',
    '{"ask":"setting"} {"ask":"setting"}', '{"ask":"satisfied","chaincode":"assets","orgs":"Maker"}',
    '{"ask":"call","chaincode":"assets","arg":"","args":[]}', '{"ask":"call","chaincode":"assets","args":["list",1]}',
]
RANGES = [("", "", 1000), ("", "", 1), ("61", "", 3), ("", "62", 1000), ("6100", "63", 2), ("00", "", 1000), ("00", "0061", 5), ("63", "61", 9)]
RANGES += [("6173736574732f", "61737365747330", 1000), ("6173736574732f61", "6f746865722f", 2)]
ORGS: list[list[str]] = [
    [], ["Maker"], ["Shop"], ["Maker", "Carrier"], ["Carrier", "Shop"], ["Maker", "Carrier", "Shop", "Nobody"]]
ARGUMENTS = ["", "726561642070616c6c65742d37", "6c697374"]
WORDS = {"AND": lambda *a: all(a), "OR": lambda *a: any(a), "OutOf": lambda count, *a: sum(a) >= count}


class Asked:
    """What the program prints of a chain by its other commands."""

    def __init__(self, tree: pathlib.Path, genesis: pathlib.Path, store: pathlib.Path, env: dict[str, str]):
        self.command, self.genesis, self.store, self.env = tree / "ledger", genesis, store, env
        self.setting, *self.blocks, _ = self.lines("show")
        self.state = self.lines("state")

    def printed(self, word: str, *words: str) -> str:
        return run([self.command, word, self.genesis, *words], self.genesis.parent, SECONDS, self.env).out

    def lines(self, word: str, *words: str) -> list:
        return [json.loads(it) for it in self.printed(word, str(self.store), *words).splitlines()]

    def policy(self, chaincode: str) -> str | None:
        """The text of the chaincode's policy in the state."""
        found = {it["name"]: it["policy"] for it in self.setting["chaincodes"]}
        for tx in (tx for block in self.blocks for tx in block["txs"]):
            if tx["flag"] == 0 and "upgrade" in tx:
                found[tx["chaincode"]] = tx["upgrade"]["policy"]
        return found.get(chaincode)


def called(answer: dict) -> str:
    """The lines of `sim` behind the first, by the answer to a call."""
    if "refused" in answer:
        return f"refused {answer['refused']}\n"
    lines = [f"result {answer['result'] or '-'}"]
    lines += [f"read {it['key']} {it['version'] or 'absent'}" for it in answer["reads"]]
    lines += [f"range {it['start'] or '-'} {it['end'] or '-'} {it['limit']} {len(it['entries'])}" for it in answer["ranges"]]
    for it in answer["writes"]:
        lines.append(f"write {it['key']} " + ("delete" if it["value"] is None else f"put {it['value'] or '-'}"))
    return "".join(it + "\n" for it in lines)


def questions(asked: Asked) -> Iterator[tuple[dict, object]]:
    """Questions about a chain, and the answers that the other commands give."""
    yield {"ask": "setting"}, asked.setting
    members = asked.lines("state", "--members")[0]
    standing = {it["name"] for it in members["members"]}
    yield {"ask": "members"}, members
    for number in range(1, len(asked.blocks) + 2):
        yield {"ask": "block", "number": number}, (asked.blocks + [None])[number - 1]
    for entry in asked.state:
        yield {"ask": "get", "key": entry["key"]}, entry
    for key in ("6e6f6e65", "00", *{it["key"] for it in asked.state[:3]}):
        writes = asked.lines("state", "--key", key)
        yield {"ask": "history", "key": key}, writes
        for number, most in [(1, 1), (1, 1000), (2, 2), (len(asked.blocks), 3), (len(asked.blocks) + 1, 1)]:
            part = [it for it in writes if number <= it["block"] < number + most]
            yield {"ask": "history", "key": key, "from": number, "blocks": most}, part
    yield {"ask": "get", "key": "6e6f6e65"}, None
    shown = [it for it in asked.state if not it["key"].startswith("00")]
    for start, end, limit in RANGES:
        within = [it for it in shown if it["key"] >= start and (not end or it["key"] < end)]
        yield {"ask": "range", "start": start, "end": end, "limit": limit}, within[:limit]
    first: dict[str, dict] = {}
    for block in asked.blocks:
        for place, tx in enumerate(block["txs"]):
            first.setdefault(tx["id"], {**tx, "block": block["block"], "place": place})
    for id, tx in [*first.items(), ("ab" * 32, None)]:
        yield {"ask": "transaction", "id": id}, tx
    for chaincode in ("assets", "other", "none"):
        policy = asked.policy(chaincode)
        for orgs in ORGS:
            test = policy and re.sub("'([^']*)'", lambda it: str(it[1] in standing.intersection(orgs)), policy)
            yield {"ask": "satisfied", "chaincode": chaincode, "orgs": orgs}, test and eval(test.strip(), dict(WORDS))


def asked_in_turn(process: subprocess.Popen, lines: list[str]) -> list[str]:
    """What a running peer answers to these questions, one each."""
    assert process.stdin and process.stdout
    process.stdin.write("".join(f"ask q {it}\n" for it in lines))
    process.stdin.flush()
    return [process.stdout.readline().rstrip("\n").removeprefix("answer q ") for _ in lines]


def has_read(process: subprocess.Popen, marks: list[str]) -> bool:
    """Whether a running peer reads these marks of a log, of which it skips none."""
    assert process.stdin and process.stdout
    for number, mark in enumerate(marks):
        process.stdin.write(f"log {number} {mark}\n")
        process.stdin.flush()
        while not (line := process.stdout.readline()).startswith(f"read {number} "):
            if not line.startswith(("known ", "tx ", "committed ")):
                return False
    return True


def try_chain(report: Report, name: str, asked: Asked, process: subprocess.Popen) -> None:
    """Asks all about one chain. Each answer is of the whole of it."""
    wanted = list(questions(asked))
    height = len(asked.blocks)
    for (question, answer), line in zip(wanted, asked_in_turn(process, [json.dumps(it) for it, _ in wanted])):
        at, _, said = line.partition(" ")
        is_so = at == str(height) and said != "bad" and json.loads(said) == answer
        report.case(f"{name}: {question}", is_so, f"{line[:400]}\nand not {str(answer)[:400]}")
    for argument in ARGUMENTS:
        for chaincode in ("assets", "other", "none"):
            texts = bytes.fromhex(argument).decode().split(" ")
            named: list[dict[str, object]] = [{"arg": argument}, {"args": texts}]
            by = [json.dumps({"ask": "call", "chaincode": chaincode, **it}) for it in named]
            line, by_texts = asked_in_turn(process, by)
            report.case(f"{name}: call of {chaincode} with {texts}", by_texts == line, f"{by_texts[:400]}\nand not {line[:400]}")
            by_sim = asked.printed("sim", chaincode, argument or "-", "--store", str(asked.store))
            words = line.partition(" ")[2]
            said = called(json.loads(words)) if words.startswith("{") else line
            behind = by_sim if by_sim.startswith("refused") else by_sim.partition("\n")[2]
            report.case(f"{name}: call of {chaincode} with {argument}", said == behind, f"{line[:400]}\nand not {by_sim[:400]}")


def try_lost(report: Report, name: str, process: subprocess.Popen, store: pathlib.Path, height: int) -> None:
    """The file gives back another byte of block 1, and then none: questions that need the block fail, and the peer goes on."""
    first, second, writes = ('{"ask":"block","number":1}', '{"ask":"block","number":2}', '{"ask":"history","key":"61"}')
    others = ['{"ask":"members"}', '{"ask":"range","start":"","end":"","limit":9}', '{"ask":"call","chaincode":"assets","arg":"6c697374"}',
              '{"ask":"block","number":4000000000}']
    before, whole = asked_in_turn(process, [*others, second]), store.read_bytes()
    # A byte of the first record, behind the hashes of the header.
    damaged = whole[:100] + bytes([whole[100] ^ 1]) + whole[101:]
    for change, data, wanted in (("a byte", damaged, "refused 702 block 1"), ("no bytes", b"", "refused 703")):
        with store.open("r+b") as file:
            file.write(data)
            file.truncate()
        for question in (first, writes):
            line, = asked_in_turn(process, [question])
            report.case(f"{name}: {change}: {question}", line == f"{height} {wanted}", line[:400])
        after = asked_in_turn(process, others if change == "no bytes" else [*others, second])
        report.case(f"{name}: {change}: other questions", after == before[:len(after)], f"{after!a:.400}\nand not {before!a:.400}")
    store.write_bytes(whole)
    line, = asked_in_turn(process, [first])
    report.case(f"{name}: the bytes are back", line.startswith(f"{height} {{"), line[:400])


def try_questions(report: Report, tree: pathlib.Path, room: pathlib.Path, env: dict[str, str], chains: int = CHAINS) -> None:
    """Asks about chains that grow: each once before, and once behind its last round."""
    sys.path.insert(0, str(tree / "examples/page"))
    import odd
    for seed in range(chains):
        at = room / f"chain{seed}"
        at.mkdir()
        store, growing = at / "odd.store", at / "growing.store"
        rules = 1 + seed % 2
        odd.odd_chain(at, ROUNDS - 1, seed, rules)
        growing.write_bytes(store.read_bytes())
        genesis = at / "odd_genesis.json"
        command: list[str | pathlib.Path] = [tree / "ledger", "peer", genesis, growing]
        with subprocess.Popen(command, cwd=at, env={**os.environ, **env}, stdin=subprocess.PIPE, stdout=subprocess.PIPE,
                              stderr=subprocess.DEVNULL, text=True) as process:
            assert process.stdin and process.stdout
            half = Asked(tree, genesis, growing, env)
            report.case(f"chain {seed}: its height", process.stdout.readline() == f"height {len(half.blocks)}\n")
            try_chain(report, f"chain {seed}", half, process)
            odd.odd_chain(at, ROUNDS, seed, rules)
            whole = Asked(tree, genesis, store, env)
            report.case(f"chain {seed}: the log is read", has_read(process, whole.printed("marks", str(store)).splitlines()))
            is_same = growing.read_bytes() == store.read_bytes()
            report.case(f"chain {seed}: it grows", is_same and len(whole.blocks) > len(half.blocks))
            try_chain(report, f"chain {seed}, longer", whole, process)
            for number, line in enumerate(asked_in_turn(process, BAD)):
                report.case(f"chain {seed}: {BAD[number]!r}", line == f"{len(whole.blocks)} bad", line[:200])
            try_lost(report, f"chain {seed}", process, growing, len(whole.blocks))
            process.stdin.close()
            report.case(f"chain {seed}: the peer ends", process.wait(SECONDS) == 0)


def main(words: list[str]) -> int:
    if len(words) != 1 or not words[0].isdecimal():
        is_help = words in (["--help"], ["-h"])
        print(__doc__, file=sys.stdout if is_help else sys.stderr)
        return 0 if is_help else 2
    report = Report("questions")
    with tempfile.TemporaryDirectory() as room:
        try_questions(report, pathlib.Path(__file__).resolve().parent.parent, pathlib.Path(room), {}, int(words[0]))
    print(report.summary())
    return 1 if report.failures else 0


if __name__ == "__main__":
    sys.exit(main(sys.argv[1:]))
