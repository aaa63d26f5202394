"""`ledger cc`: builds a chaincode in C as docs/CHAINCODE.md says. The names of functions stay, for whoever looks into it."""
import pathlib
import shutil
import subprocess
import tempfile

from network import Mistake, quoted
from program import ROOT

HEADERS = ROOT / "examples" / "chaincode"
COMPILE = ["clang", "--target=wasm32", "-mcpu=mvp", "-Oz", "-Wall", "-Wextra", "-ffreestanding", "-fno-builtin", f"-I{HEADERS}",
           "-c"]
LINK = ["wasm-ld", "--no-entry", "--strip-debug", "--compress-relocations", "-z", "stack-size=8192"]
# What has to be there, and the package of Debian that has it.
PACKAGES = {"clang": "clang", "wasm-ld": "lld"}


def build(source: str, module: str | None) -> str:
    """Compiles and links a source. The name of the module, which is by default the source's with another end."""
    file = pathlib.Path(source)
    if file.suffix != ".c":
        raise Mistake(f"{quoted(source)} is no source in C: its name has to end with .c")
    for name, package in PACKAGES.items():
        if shutil.which(name) is None:
            raise Mistake(f"there is no {name}: apt install {package}")
    made = module or f"{file.stem}.wasm"
    with tempfile.TemporaryDirectory(prefix="ledger-cc-") as room:
        compiled = f"{room}/made.o"
        into = str(pathlib.Path(made).absolute())
        for words in [*COMPILE, "-o", compiled, str(file.absolute())], [*LINK, "-o", into, compiled]:
            if subprocess.run(words).returncode:
                raise Mistake(f"{quoted(source)} is not built: {words[0]} says why")
    return made
