"""The copy of the repository in which commands are typed, with the program and the packages that they need."""
import ctypes
import os
import pathlib
import shutil
import sys

from report import Ran, run

ROOT = pathlib.Path(__file__).resolve().parent.parent
BUILT = pathlib.Path("crates", "ledger_cli", "out")
PROVED, UNPROVED = BUILT / "ledger_cli", BUILT / "unproved" / "ledger_cli"
# What is not copied: what is no source, and the crates, which nothing here changes.
LEFT_OUT = shutil.ignore_patterns(".git", "crates", "out", "target", "__pycache__", ".mypy_cache")
# What has to be there, and the package of Debian that has it.
PACKAGES = {
    "/usr/bin/clang": "clang", "/usr/bin/wasm-ld": "lld", "/usr/bin/wat2wasm": "wabt", "/usr/bin/xxd": "xxd", "/usr/bin/jq": "jq",
    "/usr/bin/etcd": "etcd-server", "/usr/bin/etcdctl": "etcd-client", "/usr/bin/chromium": "chromium",
    "/usr/bin/cargo": "cargo", "/usr/bin/rustc": "rustc", "/usr/bin/openssl": "openssl",
    "/usr/lib/python3/dist-packages/aiohttp": "python3-aiohttp",
    "/usr/lib/python3/dist-packages/cryptography": "python3-cryptography",
    "/usr/lib/python3/dist-packages/prometheus_client": "python3-prometheus-client", "/usr/sbin/haproxy": "haproxy",
    "/usr/include/openssl/evp.h": "libssl-dev", "/usr/bin/make": "make", "/usr/bin/curl": "curl", "/usr/bin/node": "nodejs",
    "/usr/lib/rustlib/wasm32-unknown-unknown/lib": "libstd-rust-dev-wasm32",
    "/usr/bin/mypy": "mypy",
}
# What ./ledger says of the program that it runs.
ABOUT_THE_PROGRAM = ("ledger: unproved", "ledger: sources are newer")
# Debian's commands before others of their names, since digests are those that its compilers make.
ENVIRONMENT = {"PATH": f"/usr/bin:{os.environ['PATH']}", "RUSTC": "/usr/bin/rustc", "CARGO_NET_OFFLINE": "true"}
PR_SET_CHILD_SUBREAPER = 36


def adopt_orphans() -> None:
    """Makes this process the parent of what its children leave behind, so that it can be ended."""
    ctypes.CDLL(None).prctl(PR_SET_CHILD_SUBREAPER, 1, 0, 0, 0)


def missing(needed: list[str] | None = None) -> list[str]:
    """Those of some packages, or of all, of which something is not there."""
    return [package for file, package in PACKAGES.items() if (needed is None or package in needed) and not os.path.exists(file)]


def install() -> str:
    """Installs the packages that are missing. Why there are some still, or nothing."""
    if not missing():
        return ""
    apt = ["apt-get", "-y", "--no-install-recommends", "install"]
    env = {"DEBIAN_FRONTEND": "noninteractive"}
    print(f"installing {' '.join(missing())}", flush=True)
    updated = run(["apt-get", "update"], ROOT, 120, env)
    installed = run([*apt, *missing()], ROOT, 300, env)
    if missing():
        return f"missing: {' '.join(missing())}\n{updated.err[-500:]}\n{installed.err[-500:]}"
    return ""


def program() -> pathlib.Path | None:
    """The program that was built here: the proved one, or else the unproved one, which ./ledger compiles. None of none."""
    if not os.environ.get("LEDGER_UNPROVED") and os.access(ROOT / PROVED, os.X_OK):
        return PROVED
    ran = run([sys.executable, ROOT / "ledger", "check", ROOT / "examples" / "put_a.wasm"], ROOT, 900)
    if ran.status:
        print(ran.out + ran.err, file=sys.stderr)
    return UNPROVED if ran.status == 0 else None


def run_ledger(words: list, folder: pathlib.Path, seconds: float, env: dict[str, str]) -> Ran:
    """Runs ./ledger, or what runs it. What it says of the program is left out."""
    ran = run(words, folder, seconds, env)
    said = [it for it in ran.err.splitlines(keepends=True) if not it.startswith(ABOUT_THE_PROGRAM)]
    return Ran(ran.status, ran.out, "".join(said))


def copy_to(tree: pathlib.Path) -> None:
    """Copies the repository, but for the crates with the program, to which it leads."""
    shutil.copytree(ROOT, tree, ignore=LEFT_OUT)
    (tree / "crates").symlink_to(ROOT / "crates")


def files(root: pathlib.Path) -> dict[str, tuple[int, int]]:
    """The size and the time of each file that is no product of a build."""
    found = {}
    for folder, names, here in os.walk(root):
        names[:] = [it for it in names if it not in (".git", "out", "target")]
        for name in here:
            at = os.lstat(os.path.join(folder, name))
            found[os.path.relpath(os.path.join(folder, name), root)] = (at.st_size, at.st_mtime_ns)
    return found


if __name__ == "__main__":
    # As .ci/run begins: the packages that all parts need.
    sys.exit(install() or 0)
