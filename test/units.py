"""In the place of systemctl: starts and stops what the units of systemd below a folder say, as processes of their own.

    units.py ROOT enable [--now] [--no-block] UNIT.. | start UNIT.. | stop UNIT.. | restart UNIT.. | reload UNIT..

The folder stands for a machine: names below /etc/regtuma, /run, /var/lib and /usr/local are looked for in it. What a unit prints is in
ROOT/UNIT.out, its process in ROOT/UNIT.pid.
"""
import os
import pathlib
import re
import shlex
import signal
import subprocess
import sys
import time

# How long a process may take to end, in seconds.
SECONDS = 60


def laid(text: str, root: pathlib.Path) -> str:
    """A text with the names of files on the machine."""
    return re.sub(r"/(?=(?:etc/regtuma|run/regtuma|var/lib/regtuma|usr/local)\b)", f"{root}/", text)


def settings_of(root: pathlib.Path, unit: str) -> dict[str, str]:
    """The lines of a unit, each setting's last."""
    text = (root / "etc/systemd/system" / unit).read_text().replace("\\\n", " ")
    return dict(it.split("=", 1) for it in text.splitlines() if re.match(r"\w+=", it))


def environment(root: pathlib.Path, settings: dict[str, str]) -> dict[str, str]:
    file = settings.get("EnvironmentFile")
    lines = pathlib.Path(laid(file, root)).read_text().splitlines() if file else []
    return dict(it.split("=", 1) for it in lines if it and it[0] != "#")


def start(root: pathlib.Path, unit: str) -> None:
    if unit.endswith(".timer") or process_of(root, unit):
        return
    settings = settings_of(root, unit)
    values = environment(root, settings)
    command = re.sub(r"\$\{(\w+)\}", lambda it: values[it[1]], laid(settings["ExecStart"], root))
    for place, setting in (("var/lib", "StateDirectory"), ("run", "RuntimeDirectory")):
        if name := settings.get(setting):
            (root / place).mkdir(parents=True, exist_ok=True)
            (root / place / name).mkdir(mode=0o750, exist_ok=True)
    with open(root / f"{unit}.out", "ab") as out:
        begun = subprocess.Popen(shlex.split(command), stdin=subprocess.DEVNULL, stdout=out, stderr=out, start_new_session=True,
                                 env={**os.environ, **values})
    (root / f"{unit}.pid").write_text(str(begun.pid))


def process_of(root: pathlib.Path, unit: str) -> int | None:
    """The process of a unit, if it runs."""
    file = root / f"{unit}.pid"
    if not file.exists():
        return None
    try:
        stat = pathlib.Path(f"/proc/{file.read_text()}/stat").read_text()
        return None if stat.rpartition(")")[2].split()[0] == "Z" else int(file.read_text())
    except OSError:
        return None


def stop(root: pathlib.Path, unit: str) -> None:
    number, until = process_of(root, unit), time.monotonic() + SECONDS
    if number:
        os.kill(number, signal.SIGTERM)
    while process_of(root, unit) and time.monotonic() < until:
        time.sleep(0.05)


def restart(root: pathlib.Path, unit: str) -> None:
    stop(root, unit)
    start(root, unit)


def reload(root: pathlib.Path, unit: str) -> None:
    if number := process_of(root, unit):
        os.kill(number, signal.SIGHUP)


def main(words: list[str]) -> int:
    root, task = pathlib.Path(words[0]), words[1]
    tasks = {"enable": start, "start": start, "stop": stop, "restart": restart, "reload": reload}
    units = [it if "." in it else f"{it}.service" for it in words[2:] if not it.startswith("--")]
    for unit in units:
        tasks[task](root, unit)
    # What has not ended would go on in the place of what is started behind it.
    return 1 if task == "stop" and any(process_of(root, it) for it in units) else 0


if __name__ == "__main__":
    sys.exit(main(sys.argv[1:]))
