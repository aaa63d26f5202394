#!/usr/bin/env python3
"""Times the proved program's commands beside baselines, on the same work in one run: how much a second, their ratio, and the most
memory of a run more. All are whole processes, but for verify and sign, which tell their time; the best of the rounds counts. A
row `by N` has N cores. README.md beside this file says what each row is.

With --beside another program of the ledger runs each command too, in turns, and the last column has how many times as much time
of processors it takes as this one. It needs Debian's packages wabt, clang, lld, libssl-dev and python3.
"""
import argparse
import dataclasses
import itertools
import json
import math
import os
import pathlib
import subprocess
import sys
from typing import Any

sys.dont_write_bytecode = True
import chain
import large
import measure
from measure import ROOT, Took, genesis, least, said

SIGNING = ROOT / "crates/ledger_cases/out/ledger_cases"
KERNELS = ["count", "tree", "fibonacci", "sort", "sha256", "hash_map"]
UNTUNED = ["matrix", "sieve", "quicksort", "chacha20", "edit_distance", "stack_machine"]
CORES = [it for it in (1, 2, 4) if it <= len(os.sched_getaffinity(0))]


@dataclasses.dataclass(frozen=True)
class Amounts:
    """How much is timed: kernels, a large module, blocks of so many calls each, and batches over so many keys."""
    kernels: list[str]
    large: tuple[int, int] = (13, 3999)
    calls: int = 500
    blocks: int = 42
    signed: int = 8
    replayed: int = 10_000
    batch: int = 512
    batches: int = 20
    keys: tuple[int, ...] = (100_000, 1000, 50)
    signatures: int = 1000


WHOLE = Amounts([*KERNELS, *(f"untuned/{it}" for it in UNTUNED)])
# The large module, which is small then, is the kernel too.
SMALL = Amounts([], large=(1, 3), calls=2, blocks=3, signed=2, replayed=10, batch=6, batches=2, keys=(5,), signatures=2)


def quotient(first: float, second: float) -> float:
    """Not a number where there is nothing to divide by, as where two times are less apart than they vary."""
    return first / second if second > 0 else math.nan


class Bench:
    """The rows, which are printed as they are measured."""

    def __init__(self, asked: argparse.Namespace, room: pathlib.Path):
        self.programs, self.rounds, self.room = [measure.need(it) for it in (asked.program, *asked.beside)], asked.rounds, room
        self.amounts = SMALL if asked.small else WHOLE
        self.large_module = room / "large.wasm"
        self.large_module.write_bytes(large.module(*self.amounts.large))

    def ledger(self, *words: object, **how: Any) -> list[Took]:
        """What a command takes, of each program. This tree's is the first, whose memory is looked at in a run more."""
        took = least(self.rounds, [[it, *words] for it in self.programs], **how)
        if made := how.get("made"):
            made.unlink()
        took[0].memory = measure.memory([self.programs[0], *words], how.get("lines"))
        return took

    def seconds(self, *command: object) -> float:
        """What a baseline takes."""
        return least(self.rounds, [list(command)])[0].clock

    def row(self, name: str, amount: int, took: list[Took], baseline: float) -> None:
        ours, *others = took
        gains = "".join(f" {quotient(it.processors, ours.processors):7.2f}" for it in others)
        rates = " ".join(f"{quotient(amount, it):13,.0f}" for it in (ours.clock, baseline))
        print(f"{name:<30} {amount:9} {rates} {quotient(baseline, ours.clock):7.2f} {ours.memory / 1e6:6.0f}{gains}", flush=True)

    def kernels(self) -> None:
        """Modules that compute, each by one call."""
        for module in [ROOT / f"bench/{it}.wasm" for it in self.amounts.kernels] or [self.large_module]:
            setting = self.room / "kernel.json"
            count = self.instructions(module, setting)
            setting.write_text(json.dumps(genesis("kernel", module.read_bytes())))
            took, baseline = self.ledger("sim", setting, "kernel", "-"), self.seconds("wasm-interp", module, "--run-all-exports")
            self.row(f"{module.stem}, instructions", count, took, baseline)

    def instructions(self, module: pathlib.Path, setting: pathlib.Path) -> int:
        """The instructions of a module's `invoke`: the least fuel with which it ends."""
        low, high = 1, 10_000_000
        while low < high:
            middle = (low + high) // 2
            setting.write_text(json.dumps(genesis("kernel", module.read_bytes(), fuel=middle)))
            ran = subprocess.run([self.programs[0], "sim", setting, "kernel", "-"], capture_output=True)
            low, high = (middle + 1, high) if ran.stdout.startswith(b"refused 403") else (low, middle)
        return low

    def large(self) -> None:
        size, took = self.large_module.stat().st_size, self.ledger("check", self.large_module)
        self.row("large, bytes", size, took, self.seconds("wasm-validate", self.large_module))

    def signatures(self) -> float:
        """Ed25519 beside OpenSSL. The seconds in which OpenSSL verifies one."""
        made, count, lines = self.room / "signatures", self.amounts.signatures, self.room / "lines"
        said(["clang++", "-std=c++17", "-O2", "-o", made, ROOT / "bench/signatures.cpp", "-lcrypto"])
        lines.write_text("\n".join(said([made, "make", count])) + "\n")
        theirs = {word: self.told(made, word, lines) for word in ("verify", "sign")}
        if os.access(SIGNING, os.X_OK):
            for word, baseline in theirs.items():
                self.row(f"{word}, signatures", count, [Took(self.told(SIGNING, word, lines))], baseline)
        else:
            print(f"bench/run: there is no program {SIGNING}: rt ci builds it; verify and sign are left out", file=sys.stderr)
        return theirs["verify"] / count

    def told(self, program: pathlib.Path, word: str, lines: pathlib.Path) -> float:
        """The least seconds that a program says it took."""
        return min(int(said([program, word], lines)[0].split()[3]) for _ in range(self.rounds)) / 1e6

    def peers(self, made: chain.Chain, count: int) -> None:
        """A command with nothing to do; then a peer that is asked so many calls, and peers that read the chain's log."""
        asked, empty, store = (self.room / name for name in ("proposals", "empty.store", "new.store"))
        asked.write_text("".join(chain.proposals(count)))
        empty.touch()
        self.row("start, commands", 1, self.ledger("audit", made.genesis, empty), self.seconds("sha256sum", empty))
        took = self.ledger("peer", made.genesis, store, "--org", "A", lines=asked, made=store)
        self.row("call, proposals", count, took, self.seconds("sha256sum", asked))
        for cores in CORES:
            took = self.ledger("peer", made.genesis, store, lines=made.log, cores=cores, made=store)
            self.row(f"log by {cores}, transactions", count, took, self.seconds("sha256sum", made.log))

    def replays(self, made: chain.Chain, count: int, baseline: pathlib.Path) -> None:
        """A store, read and judged again; then each transaction rerun too."""
        for cores in CORES:
            self.row(f"replay by {cores}, transactions", count, self.replay(made, cores), self.seconds("sha256sum", made.store))
        size, audit = [self.amounts.blocks, self.amounts.calls], self.ledger("audit", made.genesis, made.store)
        self.row("audit, transactions", count, audit, self.seconds(baseline, "audit", *size))
        rerun = [Took(one.clock - two.clock, one.processors - two.processors, one.memory)
                 for one, two in zip(audit, self.replay(made))]
        self.row("rerun, transactions", count, rerun, self.seconds(baseline, "simulate", *size))

    def replay(self, made: chain.Chain, cores: int | None = None) -> list[Took]:
        """What it takes to read a store, and a key behind it."""
        argument = b"read asset0".hex()
        return self.ledger("sim", made.genesis, "assets", argument, "--store", made.store, cores=cores)

    def register(self) -> None:
        """Chains of the asset register."""
        module, baseline = measure.compiled(self.room)
        blocks, calls, replayed = self.amounts.blocks, self.amounts.calls, self.amounts.replayed
        made = chain.register(self.programs[0], self.room / "whole", module, blocks, calls)
        self.peers(made, blocks * calls)
        self.replays(made, blocks * calls, baseline)
        tenth = self.replay(chain.register(self.programs[0], self.room / "tenth", module, replayed // 10, 2))
        took = self.replay(chain.register(self.programs[0], self.room / "replayed", module, replayed, 2))
        self.row("replay, blocks", replayed, took, 10 * tenth[0].clock)
        verified, count = self.signatures(), self.amounts.signed * calls
        made = chain.register(self.programs[0], self.room / "signed", module, self.amounts.signed, calls, are_signed=True)
        for cores in CORES:
            self.row(f"signed by {cores}, transactions", count, self.replay(made, cores), 2 * count * verified)

    def reordering(self) -> None:
        """What reordering costs a peer, and how many more transactions end VALID by it."""
        count, valid = self.amounts.batches * self.amounts.batch, []
        for keys in self.amounts.keys:
            as_cut, ordered = (self.batches(keys, reorder) for reorder in (False, True))
            store = self.room / "reordered.store"
            plain = self.ledger("peer", as_cut.genesis, store, lines=as_cut.log, made=store)
            took = self.ledger("peer", ordered.genesis, store, lines=as_cut.log, made=store)
            self.row(f"reorder over {keys} keys, txs", count, took, plain[0].clock)
            valid.append([keys, as_cut.flags.count("0"), ordered.flags.count("0")])
        print(f"\n{'transactions that end VALID':<30} {'of':>9} {'as cut':>9} {'reordered':>9}")
        for keys, cut, reordered in valid:
            print(f"{f'over {keys} keys':<30} {count:9} {cut:9} {reordered:9}")

    def batches(self, keys: int, reorder: bool) -> chain.Chain:
        """Batches of calls that read four keys and write two."""
        calls = chain.touching(keys, 4, 2, self.amounts.batch)
        blocks = itertools.islice(calls, self.amounts.batches)
        return chain.of_keys(self.programs[0], self.room / f"{keys}-{reorder}", blocks, self.amounts.batch, reorder)


def main() -> None:
    words = measure.reader(__doc__, 20)
    words.add_argument("--beside", type=pathlib.Path, action="append", default=[], metavar="PROGRAM", help="another program")
    asked = words.parse_args()
    with measure.folder(asked.small) as room:
        bench = Bench(asked, room)
        gains = "".join(f" {'gain':>7}" for _ in asked.beside)
        print(f"{'a second':<30} {'amount':>9} {'regtuma':>13} {'baseline':>13} {'ratio':>7} {'MB':>6}{gains}")
        for part in (bench.kernels, bench.large, bench.register, bench.reordering):
            part()


if __name__ == "__main__":
    measure.end_with(main)
