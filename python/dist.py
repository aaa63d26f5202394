"""Packs what `make install` installs, with the proved program, for machines without the Rattle kit."""
import gzip
import hashlib
import io
import pathlib
import platform
import subprocess
import tarfile
import tempfile

from program import PROVED, ROOT, is_current

OUT = ROOT / "out"
# The file with the digests of all others, in the folder of what is installed.
DIGESTS = "SHA256SUMS"
LIB = pathlib.Path("usr", "local", "lib", "regtuma")


class NoDist(Exception):
    """Why nothing is packed."""


def check_proved() -> None:
    """Whether the program is there, and proved as the sources are."""
    if not (ROOT / "crates.txt").exists():
        raise NoDist("this is an installed tree, and nothing is packed of it")
    if not PROVED.exists():
        raise NoDist("there is no proved program, and no other one is packed; ./ledger prove makes it")
    if not is_current(PROVED, ["src", "specs", "proofs"]):
        raise NoDist("sources are newer than the proved program, so it is not packed; ./ledger prove proves them")


def digest(file: pathlib.Path) -> str:
    return hashlib.sha256(file.read_bytes()).hexdigest()


def lay(tree: pathlib.Path) -> None:
    """Installs the proved program, also where LEDGER names another one, into a folder, and adds the digests of the files."""
    words = ["make", "--silent", "install", f"DESTDIR={tree}", "PREFIX=/usr/local", f"LEDGER={PROVED.relative_to(ROOT)}"]
    made = subprocess.run(words, cwd=ROOT, capture_output=True, text=True)
    if made.returncode:
        raise NoDist(f"make install ended with status {made.returncode}: {made.stderr.strip()}")
    lib = tree / LIB
    files = sorted(it for it in lib.rglob("*") if it.is_file())
    (lib / DIGESTS).write_text("".join(f"{digest(it)}  {it.relative_to(lib)}\n" for it in files), encoding="ascii")


def plain(entry: tarfile.TarInfo) -> tarfile.TarInfo:
    """An entry without whose it was and when."""
    entry.uid = entry.gid = entry.mtime = 0
    entry.uname = entry.gname = "root"
    return entry


def pack(tree: pathlib.Path, name: str) -> bytes:
    """The bytes of a tarball, which are the same for the same files."""
    tar, packed = io.BytesIO(), io.BytesIO()
    with tarfile.open(fileobj=tar, mode="w", format=tarfile.PAX_FORMAT) as archive:
        for file in sorted(tree.rglob("*")):
            archive.add(file, f"{name}/{file.relative_to(tree)}", recursive=False, filter=plain)
    with gzip.GzipFile(fileobj=packed, mode="wb", mtime=0) as compressed:
        compressed.write(tar.getvalue())
    return packed.getvalue()


def dist() -> pathlib.Path:
    """Makes out/regtuma-VERSION-MACHINE.tar.gz, and SHA256SUMS beside it. The tarball."""
    check_proved()
    name = f"regtuma-{(ROOT / 'VERSION').read_text(encoding='ascii').strip()}"
    made = OUT / f"{name}-{platform.machine()}.tar.gz"
    OUT.mkdir(exist_ok=True)
    with tempfile.TemporaryDirectory(prefix="regtuma-dist-") as room:
        tree = pathlib.Path(room) / name
        lay(tree)
        made.write_bytes(pack(tree, name))
    (OUT / DIGESTS).write_text(f"{digest(made)}  {made.name}\n", encoding="ascii")
    return made
