"""./ledger explain: each number of the program's table is explained, and no other."""
import json
import pathlib

from report import Ran, Report, run

# How long a command may take, in seconds.
SECONDS = 60


def try_explain(report: Report, tree: pathlib.Path, env: dict[str, str]) -> None:
    def explain(*words: str) -> Ran:
        return run([tree / "ledger", "explain", *words], tree, SECONDS, env)

    table = json.loads((tree / "node" / "regtuma" / "table.json").read_text(encoding="ascii"))
    for row in [*table["flags"], *table["numbers"]]:
        ran = explain(str(row["number"]))
        is_told = ran.status == 0 and row["meaning"] in ran.out and row.get("advice", "") in ran.out and "docs/" in ran.out and not ran.err
        report.case(f"{row['number']} is explained", is_told, ran.out + ran.err)
    for word in ("505", "x", "9" * 5000):
        ran = explain(word)
        is_told = ran.status == 1 and not ran.out and ran.err.count("\n") == 1 and ran.err.startswith("ledger: ")
        report.case(f"{word[:9]} is not explained", is_told, ran.out + ran.err)
    for words in ((), ("9", "9"), ("--no",)):
        report.case(f"explain {' '.join(words)}: usage", explain(*words).status == 2)
    ran = run(["bash", "-c", "./ledger explain 703 > /dev/full"], tree, SECONDS, env)
    is_told = ran.status == 1 and ran.err == "ledger: the output: No space left on device\n"
    report.case("an output that takes nothing is told of", is_told, ran.err)
