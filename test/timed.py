"""The part `timed`: the words of `ledger_cases` that bench/run times and bench/instructions counts, and the scripts of bench/
that time the ledger's commands, with small amounts.

`ledger_cases` is asked as `rt ci` built it; where it did not, nothing is asked of it. The seed, the key and the signature are
those of TEST 1 of RFC 8032, section 7.1; the signature of 64 zeros is that of another program.
"""
import pathlib
import re
import subprocess

from report import Report, run
from tree import ROOT

SIGNING = ROOT / "crates/ledger_cases/out/ledger_cases"
SEED = "9d61b19deffd5a60ba844af492ec2cc44449c5697b326919703bac031cae7f60"
KEY = "d75a980182b10ab7d54bfed3c964073a0ee172f3daa62325af021a68f707511a"
OF_NOTHING = ("e5564300c360ac729086e2cc806e828a84877f1eb8e5d974d873e065224901555fb8821590a33bacc61e39701cf9b46bd25bf5f0595bbe2465"
              "5141438e7a100b")
OF_ZEROS = ("9de44a3f864f0eb9cb91b673fcc0c99a12c50d9f60064ba20d24f0dcc81775a24b1695c58e25be15b283720e6eec2901af7178a597cfedb733"
            "13895c92306405")
# How the rows of each script begin, with these words.
ROWS = {
    "run": ["large, instructions", "large, bytes +54", "start, commands +1", "call, proposals +6", "log by 1, transactions +6",
            "replay by 1, transactions +6", "audit, transactions +6", "rerun, transactions +6", "replay, blocks +10", "signed by 1, transactions +4", "reorder over 5 keys, txs +12", "over 5 keys +12 +2 +4"],
    "state": ["130 +2 +[0-9]+ +[0-9]+"],
    "state --blocks 9": ["1 +3 +[0-9]+ +1[.]00", "7 +9 +[0-9]+ +[0-9.]+", "the peer at the end +[0-9]+", "a start on its store +[0-9.]+ +[0-9]+",
                         "an audit +[0-9.]+ +[0-9]+"],
    "slowest": ["log, a block, two signatures +[0-9]", "call, instructions +[0-9]", "call, host calls, reads +[0-9]", "ask, history +[0-9]", "ask, part of a history +[0-9]",
                "ask, block, behind amendments +[0-9]"],
    "threads": ["1 +5 ", "2 +10 ", "4 +20 "],
}
SECONDS, LONG = 60, 550


def said(words: str, given: bytes = b"") -> tuple[int, bytes]:
    """How `ledger_cases` ends on words, and what it prints."""
    ran = subprocess.run([SIGNING, *words.split(" ")], input=given, capture_output=True, timeout=SECONDS)
    return ran.returncode, ran.stdout


def try_signing(report: Report) -> None:
    line, wrong = (f"{SEED} {KEY} - {it}\n".encode() for it in (OF_NOTHING, OF_ZEROS))
    for word in ("verify", "sign"):
        status, out = said(word, 3 * line)
        report.case(f"{word}: three lines", status == 0 and re.fullmatch(rb"done 3 micros \d+\n", out) is not None, str(out))
        report.case(f"{word}: another signature", said(word, line + wrong) == (1, b"wrong signature\n"))
    report.case("once: the signature of 64 zeros", said("once", bytes.fromhex(SEED)) == (0, bytes.fromhex(OF_ZEROS)))
    report.case("no such word", said("twice")[0] == 2)


def try_scripts(report: Report, tree: pathlib.Path, program: pathlib.Path, env: dict[str, str]) -> None:
    """Each script prints its rows; bench/run with a second program beside the first."""
    for name, rows in ROWS.items():
        script, *words = name.split()
        beside = ["--beside", program] if name == "run" else []
        ran = run([tree / "bench" / script, "1", *words, "--small", "--program", program, *beside], tree, LONG, env)
        report.case(f"bench/{name} ends", ran.status == 0, f"status {ran.status}\n{ran.out}{ran.err}"[-1500:])
        for row in rows:
            report.case(f"bench/{name}: {row}", re.search(f"^ *{row}", ran.out, re.MULTILINE) is not None, ran.out)


def try_timed(report: Report, tree: pathlib.Path, program: pathlib.Path, env: dict[str, str]) -> None:
    if SIGNING.exists():
        try_signing(report)
    else:
        print(f"timed: `rt ci` has not built {SIGNING.name} here, so its words are not tried", flush=True)
    try_scripts(report, tree, program, env)
