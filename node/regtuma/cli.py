"""Calls a ledger from a shell.

    regtuma submit CHAINCODE ARG.. [--tries N] [--orgs NAME,..] [--nonce HEX]
                               has a call committed, and says what became of it
    regtuma evaluate CHAINCODE ARG..       prints the result of a call that changes nothing
    regtuma get KEY                        prints what a key has
    regtuma state [START [END]] [--limit N]
                               prints the entries from one key on and below another
    regtuma history KEY                    prints each write to a key
    regtuma status ID [--wait SECONDS]     says what became of a transaction
    regtuma watch [--from N]               prints a line for each transaction, as blocks come
    regtuma block N                        prints a block as JSON
    regtuma height                         prints how many blocks the node has
    regtuma health                         says whether a node is well, what is wrong, and what it warns of
    regtuma members                        prints who the members are, their keys and the policy for changes
    regtuma agree FILE         lets the node endorse the change in FILE for a week, and says what it changes; the id is that of its
                               transaction
    regtuma agreed                         prints the changes that the node may endorse
    regtuma withdraw ID                    lets the node endorse a change no more
    regtuma change FILE --orgs NAME,..
                               has the change in FILE committed, by organisations that have agreed: an upgrade or an amendment

With --json the same is printed as JSON; --seconds N (40) is how long an answer may take. Nodes and certificates are
those of the environment's REGTUMA_NODES (URLs with commas between, asked in turn), REGTUMA_CERT, REGTUMA_KEY and REGTUMA_CA
(files). REGTUMA_CA is the organisation's own ca.pem, or lists an authority for each node, with commas between. The status
is 0 where it was done; 1 where it was refused, is not VALID, is not there or is not well; 2 where the words name no task;
3 where no node answers, or the time is up and the call is in no block yet.
"""
import argparse
import json
import os
import pathlib
import sys
import time
from collections.abc import Callable

from .client import Client, Failed, NoAnswer, Pending, from_environment
from .wire import Object

DONE, NOT_DONE, NO_TASK, UNANSWERED, INTERRUPTED = 0, 1, 2, 3, 130


def shown(text: str) -> str:
    """A text of which nothing speaks to a terminal."""
    return "".join(it if it.isprintable() else f"\\x{ord(it):02x}" for it in text)


def printable(data: bytes) -> str:
    """Bytes as such a text."""
    return shown(data.decode("utf-8", "backslashreplace"))


def text_of(hex_: str) -> str:
    return printable(bytes.fromhex(hex_))


def say(words: argparse.Namespace, said: object, text: str) -> None:
    """Prints JSON, where that is asked for, or the same in words, which may be those of a node that lies."""
    print(json.dumps(said) if words.json else "\n".join(map(shown, text.split("\n"))), flush=True)


def outcome(said: Object) -> str:
    """What became of a transaction, in words."""
    place = f", block {said['block']}, place {said['place']}" if "block" in said else ""
    if said.get("valid"):
        result = f", result {text_of(said['result'])}" if said.get("result") else ""
        return f"VALID{place}{result}, id {said['id']}"
    flag = f"flag {said['flag']}{place}: " if "flag" in said else ""
    number = f"refused {said['refused']}: " if said.get("refused") else ""
    return f"{flag}{number}{shown(str(said['why']))}" + (f", id {said['id']}" if "id" in said else "")


# ---------------------------------------------------------------- what is asked for


def submit(ledger: Client, words: argparse.Namespace) -> int:
    orgs = words.orgs.split(",") if words.orgs else None
    said = ledger.submit(words.chaincode, *words.arg, organisations=orgs, tries=words.tries, nonce=words.nonce)
    say(words, said, outcome(said))
    return DONE


def evaluate(ledger: Client, words: argparse.Namespace) -> int:
    result = ledger.evaluate(words.chaincode, *words.arg)
    say(words, {"result": result.hex()}, "\n".join(printable(it) for it in result.splitlines()))
    return DONE


def get(ledger: Client, words: argparse.Namespace) -> int:
    value = ledger.get(words.key)
    if value is None:
        print(f"the state has no key {words.key}", file=sys.stderr)
        return NOT_DONE
    say(words, {"value": value.hex()}, printable(value))
    return DONE


def state(ledger: Client, words: argparse.Namespace) -> int:
    entries = ledger.state(words.start, words.end, words.limit)
    lines = [f"{text_of(it['key'])} {it['version']} {text_of(it['value'])}" for it in entries]
    say(words, entries, "\n".join(lines) if lines else "no key is there")
    return DONE


def history(ledger: Client, words: argparse.Namespace) -> int:
    writes = ledger.history(words.key)
    lines = [f"{it['block']}.{it['place']} {value_of(it)} {it['id']}" for it in writes]
    say(words, writes, "\n".join(lines) if lines else f"nobody wrote to {words.key}")
    return DONE


def value_of(write: Object) -> str:
    return "deleted" if write["value"] is None else text_of(write["value"])


def status(ledger: Client, words: argparse.Namespace) -> int:
    said = ledger.status(words.id, words.wait)
    say(words, said, outcome(said))
    return DONE if said.get("valid") else NOT_DONE


def watch(ledger: Client, words: argparse.Namespace) -> int:
    for block in ledger.blocks(words.first):
        for place, tx in enumerate(block["txs"]):
            text = f"{block['block']}.{place} {call(tx)}, flag {tx['flag']}, id {tx['id']}"
            say(words, {"block": block["block"], "place": place, **tx}, text)
    return DONE


def call(tx: Object) -> str:
    """What a transaction of a block asks for."""
    if "arg" in tx:
        return f"{tx['chaincode']} {text_of(tx['arg'])}"
    return f"upgrade of {tx['chaincode']}" if "upgrade" in tx else "amendment of the members"


def block(ledger: Client, words: argparse.Namespace) -> int:
    print(json.dumps(ledger.block(words.number)))
    return DONE


def height(ledger: Client, words: argparse.Namespace) -> int:
    print(shown(str(ledger.height())))
    return DONE


def health(ledger: Client, words: argparse.Namespace) -> int:
    said = ledger.health()
    told = [f"wrong: {shown(it)}" for it in said["wrong"]] + [f"warning: {shown(it)}" for it in said["warnings"]]
    say(words, said, "\n".join([f"{said['organisation']} has {said['height']} blocks", *told]))
    return DONE if said["ok"] else NOT_DONE


def members(ledger: Client, words: argparse.Namespace) -> int:
    said = ledger.members()
    keys = [f"{it['name']} {it.get('public') or 'has its key of the genesis file'}" for it in said["members"]]
    say(words, said, "\n".join([f"serial number {said['serial']}, policy {said['policy']}", *keys]))
    return DONE


def proposal_in(file: str) -> Object:
    """The one line of a file, or of the standard input, which is -."""
    try:
        text = sys.stdin.read() if file == "-" else pathlib.Path(file).read_text(encoding="ascii")
        said = json.loads(text)
    except (OSError, ValueError) as error:
        raise Failed(f"{file} has no proposal: {error}") from None
    if not isinstance(said, dict) or not {"upgrade", "members"} & said.keys():
        raise Failed(f"{file} has no upgrade and no amendment: regtuma-change makes them")
    return said


def agree(ledger: Client, words: argparse.Namespace) -> int:
    said = ledger.agree(proposal_in(words.file))
    say(words, said, agreement(said))
    return DONE


def agreed(ledger: Client, words: argparse.Namespace) -> int:
    changes = ledger.agreed()
    say(words, changes, "\n".join(map(agreement, changes)) if changes else "nothing was agreed to")
    return DONE


def withdraw(ledger: Client, words: argparse.Namespace) -> int:
    ledger.withdraw(words.id)
    say(words, {"id": words.id}, f"{words.id} is agreed to no more")
    return DONE


def agreement(said: Object) -> str:
    """What is agreed to, in words, and until when."""
    until = time.strftime("%Y-%m-%d %H:%M", time.localtime(said["until"]))
    return f"{said['id']} until {until}: {shown(said['words'])}"


def change(ledger: Client, words: argparse.Namespace) -> int:
    said = ledger.change(proposal_in(words.file), words.orgs.split(","))
    say(words, said, outcome(said))
    return DONE


# ---------------------------------------------------------------- the words


def seconds(word: str) -> float:
    """A time of a day at most. argparse says so where a word is none."""
    found = float(word)
    if not 0 <= found <= 86400:
        raise ValueError(word)
    return found


def words_of(words: list[str]) -> argparse.Namespace:
    reader = argparse.ArgumentParser(prog="regtuma", description=__doc__, formatter_class=argparse.RawDescriptionHelpFormatter,
                                     allow_abbrev=False)
    tasks = reader.add_subparsers(dest="task", required=True, metavar="TASK")

    def task(do: Callable[[Client, argparse.Namespace], int], **places: str) -> argparse.ArgumentParser:
        made = tasks.add_parser(do.__name__, allow_abbrev=False)
        made.set_defaults(do=do)
        made.add_argument("--json", action="store_true")
        made.add_argument("--seconds", type=seconds, default=40.0, metavar="N")
        for place, count in places.items():
            if count:
                made.add_argument(place, nargs=count, default="" if count == "?" else None)
            else:
                made.add_argument(place)
        return made

    made = task(submit, chaincode="", arg="+")
    made.add_argument("--tries", type=int, default=1, metavar="N")
    made.add_argument("--orgs", metavar="NAME,..")
    made.add_argument("--nonce", metavar="HEX")
    task(evaluate, chaincode="", arg="+")
    task(get, key="")
    task(state, start="?", end="?").add_argument("--limit", type=int, default=64, metavar="N")
    task(history, key="")
    task(status, id="").add_argument("--wait", type=seconds, default=0.0, metavar="SECONDS")
    task(watch).add_argument("--from", dest="first", type=int, metavar="N")
    task(block).add_argument("number", type=int)
    for do in (height, health, members, agreed):
        task(do)
    task(agree, file="")
    task(withdraw, id="")
    task(change, file="").add_argument("--orgs", required=True, metavar="NAME,..")
    return reader.parse_args(words)


def answered(asked: argparse.Namespace) -> int:
    """Does what is asked for, or says why not. The status."""
    try:
        status: int = asked.do(from_environment(asked.seconds), asked)
        return status
    except Failed as failed:
        said = {"why": str(failed), **failed.said}
        say(asked, said, outcome(said))
        return UNANSWERED if isinstance(failed, (NoAnswer, Pending)) else NOT_DONE


def main(words: list[str]) -> int:
    asked = words_of(words)
    if any("\udc80" <= it <= "\udcff" for word in words for it in word):
        print("regtuma: a word is not UTF-8", file=sys.stderr)
        return NO_TASK
    try:
        status = answered(asked)
        print(end="", flush=True)
        return status
    except KeyboardInterrupt:
        return INTERRUPTED
    except OSError as error:
        # Who reads has gone, or there is no room. At the end Python would try once more, and end with 120.
        os.dup2(os.open(os.devnull, os.O_WRONLY), sys.stdout.fileno())
        if not isinstance(error, BrokenPipeError):
            print(f"regtuma: the output: {error.strerror}", file=sys.stderr)
        return NOT_DONE


if __name__ == "__main__":
    sys.exit(main(sys.argv[1:]))
